/* Each request for memory refused in turn. scripts/callers links this with --wrap=malloc and --wrap=realloc, so
 * that it sees what the library requests.
 *
 *   refused < NAMES        each call on each file that a line of standard input names
 *
 * A call whose request is refused has to answer MP4_OUT_OF_MEMORY and to fill in nothing, or, where it does without,
 * what it answers with all memory. A line for each call says how many of its requests were refused; the status is 0
 * where each call answered so and each had a request.
 */
#define _GNU_SOURCE
#include "mp4.h"

#include <stdio.h>
#include <stdlib.h>
#include <string.h>

/* Requests of the call that runs, and which of them is refused: none where it is 0. */
static int watching;
static unsigned long requests, refused;

void *__real_malloc(size_t size);
void *__real_realloc(void *old, size_t size);
void *__wrap_malloc(size_t size);
void *__wrap_realloc(void *old, size_t size);

static int is_refused(void) {
    return watching && ++requests == refused;
}

void *__wrap_malloc(size_t size) {
    return is_refused() ? NULL : __real_malloc(size);
}

void *__wrap_realloc(void *old, size_t size) {
    return is_refused() ? NULL : __real_realloc(old, size);
}

/* The bytes of a file, and all that is filled in by a call. */
typedef struct trial {
    const uint8_t *file;
    size_t size;
    mp4_movie movie;
    mp4_brand brands[8];
    mp4_track tracks[16];
    mp4_sample samples[64];
    uint32_t number;
    size_t room;
    uint8_t bytes[65536];
} trial;

static mp4_answer open_it(trial *t) {
    return mp4_open(t->file, t->size, &t->movie);
}

static mp4_answer list_brands(trial *t) {
    return mp4_brands(t->file, t->size, t->brands, 8);
}

static mp4_answer list_tracks(trial *t) {
    return mp4_tracks(t->file, t->size, t->tracks, 16);
}

static mp4_answer list_samples(trial *t) {
    return mp4_samples(t->file, t->size, 1, 1, t->samples, 64);
}

static mp4_answer find_by_time(trial *t) {
    return mp4_sample_at(t->file, t->size, 1, 1000, &t->number);
}

static mp4_answer find_sync(trial *t) {
    return mp4_sync_sample_at_or_before(t->file, t->size, 1, 3, &t->number);
}

static mp4_answer read_title(trial *t) {
    return mp4_metadata(t->file, t->size, MP4_TITLE, t->bytes, sizeof t->bytes);
}

static mp4_answer read_parameter_set(trial *t) {
    return mp4_parameter_set(t->file, t->size, 1, MP4_SEQUENCE_SET, t->bytes, sizeof t->bytes);
}

/* A movie of three tracks whose samples and parameter sets lie in the bytes of the file. */
static mp4_answer write_movie(trial *t) {
    static const mp4_new_movie movie = {1000, 512, {'i', 's', 'o', 'm'}};
    static const mp4_brand brands[2] = {{"isom"}, {"avc1"}};
    static const mp4_new_track tracks[3] = {
        {0, 4, 4, 2, 90000, 0, {'a', 'v', 'c', '1'}, {0}, 64, 48, 0, 0, 0, 0},
        {0, 0, 0, 0, 48000, 128000, {'m', 'p', '4', 'a'}, {'e', 'n', 'g', 0}, 0, 0, 2, 3, 2, 0},
        {0, 0, 0, 0, 1000, 0, {'t', 'x', '3', 'g'}, {0}, 0, 0, 0, 0, 0, 0},
    };
    mp4_sample samples[6];
    memset(samples, 0, sizeof samples);
    for (uint32_t k = 0; k < 6; k++) {
        samples[k].offset = k;
        samples[k].track_id = k % 3 + 1;
        samples[k].size = 8 - k;
        samples[k].duration = 500 + k;
        samples[k].is_sync = k < 3;
    }
    return mp4_write(&movie, brands, 2, tracks, 3, samples, 6, t->file, t->size, t->bytes, t->room);
}

/* How many bytes it would have. */
static mp4_answer count_movie(trial *t) {
    t->room = 0;
    return write_movie(t);
}

static mp4_answer move_to_front(trial *t) {
    return mp4_move_to_front(t->file, t->size, t->bytes, sizeof t->bytes);
}

static mp4_answer gather(trial *t) {
    return mp4_gather(t->file, t->size, t->bytes, sizeof t->bytes);
}

static mp4_answer choose(trial *t) {
    static const uint32_t first = 1;
    return mp4_choose(t->file, t->size, &first, 1, t->bytes, sizeof t->bytes);
}

static mp4_answer say_error(trial *t) {
    mp4_answer answer;
    memset(&answer, 0, sizeof answer);
    answer.code = MP4_ENTRY_IN_STBL_NOT_FOUND;
    answer.track_id = 7;
    answer.number = 12;
    memcpy(answer.box_type, "stts", 4);
    return mp4_error_text(&answer, t->bytes, sizeof t->bytes);
}

static mp4_answer say_why(trial *t) {
    return mp4_open_error_text(t->file, t->size - 1, t->bytes, sizeof t->bytes);
}

typedef struct call {
    const char *name;
    mp4_answer (*make)(trial *);
    unsigned long refusals;
} call;

static call calls[] = {
    {"mp4_open", open_it, 0},
    {"mp4_brands", list_brands, 0},
    {"mp4_tracks", list_tracks, 0},
    {"mp4_samples", list_samples, 0},
    {"mp4_sample_at", find_by_time, 0},
    {"mp4_sync_sample_at_or_before", find_sync, 0},
    {"mp4_metadata", read_title, 0},
    {"mp4_parameter_set", read_parameter_set, 0},
    {"mp4_write", write_movie, 0},
    {"mp4_write without room", count_movie, 0},
    {"mp4_move_to_front", move_to_front, 0},
    {"mp4_gather", gather, 0},
    {"mp4_choose", choose, 0},
    {"mp4_error_text", say_error, 0},
    {"mp4_open_error_text", say_why, 0},
};

/* A trial over a file in which nothing is filled in: it is full of ones. */
static void reset(trial *t) {
    const uint8_t *file = t->file;
    size_t size = t->size;
    memset(t, 1, sizeof *t);
    t->file = file;
    t->size = size;
    t->room = sizeof t->bytes;
}

/* One call whose n-th request is refused, and what it makes of a trial. */
static mp4_answer run(const call *c, trial *t, unsigned long n) {
    reset(t);
    requests = 0;
    refused = n;
    watching = 1;
    mp4_answer answer = c->make(t);
    watching = 0;
    t->room = sizeof t->bytes;
    return answer;
}

static int is_same(const trial *a, const trial *b) {
    return memcmp(a, b, sizeof *a) == 0;
}

/* Refuses each request of a call in turn, and says whether it answered each as it has to. */
static int try_call(call *c, trial *whole, trial *now, trial *untouched) {
    mp4_answer none;
    memset(&none, 0, sizeof none);
    none.code = MP4_OUT_OF_MEMORY;
    mp4_answer expected = run(c, whole, 0);
    unsigned long all = requests;
    for (unsigned long n = 1; n <= all; n++) {
        mp4_answer answer = run(c, now, n);
        none.part = answer.part;
        none.index = answer.index;
        int is_out_of_memory = memcmp(&answer, &none, sizeof answer) == 0 && is_same(now, untouched);
        int does_without = memcmp(&answer, &expected, sizeof answer) == 0 && is_same(now, whole);
        if (!is_out_of_memory && !does_without) {
            printf("%s: request %lu of %lu refused, and the answer is %u\n", c->name, n, all, answer.code);
            return 0;
        }
        c->refusals++;
    }
    return 1;
}

/* Tries all calls on a file of at most 64 KiB. */
static int try_file(const char *name) {
    static uint8_t bytes[65536];
    static trial whole, now, untouched;
    FILE *from = fopen(name, "rb");
    if (!from) return 0;
    size_t size = fread(bytes, 1, sizeof bytes, from);
    fclose(from);
    whole.file = now.file = untouched.file = bytes;
    whole.size = now.size = untouched.size = size;
    reset(&untouched);
    for (size_t k = 0; k < sizeof calls / sizeof *calls; k++) {
        if (!try_call(&calls[k], &whole, &now, &untouched)) return 0;
    }
    return 1;
}

int main(void) {
    char *name = NULL;
    size_t room = 0;
    ssize_t length;
    int status = 0;
    while ((length = getline(&name, &room, stdin)) > 0) {
        name[length - 1] = 0;
        if (!try_file(name)) {
            printf("%s: not as it has to be\n", name);
            status = 1;
        }
    }
    free(name);
    for (size_t k = 0; k < sizeof calls / sizeof *calls; k++) {
        printf("%s: %lu requests refused\n", calls[k].name, calls[k].refusals);
        if (calls[k].refusals == 0) status = 1;
    }
    return status;
}
