/* calls FILM: what bench/bindings measures, in C. */
#define _GNU_SOURCE
#include "mp4.h"

#include <fcntl.h>
#include <stdio.h>
#include <stdlib.h>
#include <sys/mman.h>
#include <sys/stat.h>
#include <time.h>

enum { TURNS = 9, SAMPLES = 1000000, READS = 1000 };

static const uint8_t *file;
static size_t size;
static mp4_sample *rows;
static mp4_movie movie;
static volatile uint64_t sum;

static double seconds(void) {
    struct timespec now;
    clock_gettime(CLOCK_MONOTONIC, &now);
    return (double)now.tv_sec + (double)now.tv_nsec / 1e9;
}

static int by_size(const void *one, const void *other) {
    double a = *(const double *)one, b = *(const double *)other;
    return (a > b) - (a < b);
}

static double median(void (*work)(void)) {
    double taken[TURNS];
    for (int turn = 0; turn < TURNS; turn++) {
        double begun = seconds();
        work();
        taken[turn] = seconds() - begun;
    }
    qsort(taken, TURNS, sizeof *taken, by_size);
    return taken[TURNS / 2];
}

static uint32_t next_random(void) {
    static uint64_t state = 88172645463325252u;
    state ^= state << 13;
    state ^= state >> 7;
    state ^= state << 17;
    return (uint32_t)(state >> 32);
}

static void open_it(void) {
    mp4_open(file, size, &movie);
}

static void index_it(void) {
    mp4_open(file, size, &movie);
    mp4_samples(file, size, 1, 1, rows, SAMPLES);
}

static void at_random(void) {
    for (int k = 0; k < SAMPLES; k++) sum += rows[next_random() % SAMPLES].offset;
}

static void all(void) {
    mp4_samples(file, size, 1, 1, rows, SAMPLES);
    for (int k = 0; k < SAMPLES; k++) sum += rows[k].size;
}

static void read_at_random(void) {
    for (int k = 0; k < READS; k++) {
        const mp4_sample *row = &rows[next_random() % SAMPLES];
        const uint8_t *bytes = mp4_sample_bytes(file, size, row);
        for (uint32_t n = 0; n < row->size; n++) sum += bytes[n];
    }
}

int main(int count, char **words) {
    int handle = open(count > 1 ? words[1] : "", O_RDONLY);
    struct stat facts;
    if (handle < 0 || fstat(handle, &facts) != 0) return 1;
    size = (size_t)facts.st_size;
    file = mmap(NULL, size, PROT_READ, MAP_PRIVATE | MAP_POPULATE, handle, 0);
    rows = malloc(SAMPLES * sizeof *rows);
    if (file == MAP_FAILED || !rows) return 1;
    double opened = median(open_it), indexed = median(index_it), found = median(at_random);
    printf("%-12s %9.2f %9.2f %9.1f %9.2f %9.3f\n", "C", opened * 1e3, indexed * 1e3, found * 1e9 / SAMPLES,
           median(all) * 1e3, median(read_at_random) * 1e3);
    return 0;
}
