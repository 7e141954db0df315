/* avformat FILM: the same by libavformat, as far as it has such calls. */
#include <libavformat/avformat.h>
#include <stdio.h>
#include <stdlib.h>
#include <time.h>

enum { TURNS = 9, SAMPLES = 1000000, READS = 1000 };

static const char *film;
static AVFormatContext *movie;
static volatile int64_t sum;

static double seconds(void) {
    struct timespec now;
    timespec_get(&now, TIME_UTC);
    return (double)now.tv_sec + (double)now.tv_nsec / 1e9;
}

static int by_size(const void *one, const void *other) {
    double a = *(const double *)one, b = *(const double *)other;
    return (a > b) - (a < b);
}

static double median(void (*work)(void)) {
    double taken[TURNS];
    for (int turn = 0; turn < TURNS; turn++) {
        double begun = seconds();
        work();
        taken[turn] = seconds() - begun;
    }
    qsort(taken, TURNS, sizeof *taken, by_size);
    return taken[TURNS / 2];
}

static AVFormatContext *opened(void) {
    AVFormatContext *context = NULL;
    if (avformat_open_input(&context, film, NULL, NULL) < 0) exit(1);
    return context;
}

static void open_it(void) {
    AVFormatContext *context = opened();
    avformat_close_input(&context);
}

static void at_random(void) {
    for (int k = 0; k < SAMPLES; k++) {
        int number = (int)((uint64_t)rand() % SAMPLES);
        sum += avformat_index_get_entry(movie->streams[0], number)->pos;
    }
}

static void all(void) {
    AVPacket *packet = av_packet_alloc();
    av_seek_frame(movie, 0, 0, AVSEEK_FLAG_BACKWARD);
    while (av_read_frame(movie, packet) >= 0) {
        sum += packet->size;
        av_packet_unref(packet);
    }
    av_packet_free(&packet);
}

static void read_at_random(void) {
    AVPacket *packet = av_packet_alloc();
    for (int k = 0; k < READS; k++) {
        int number = (int)((uint64_t)rand() % SAMPLES);
        int64_t time = avformat_index_get_entry(movie->streams[0], number)->timestamp;
        av_seek_frame(movie, 0, time, AVSEEK_FLAG_ANY);
        if (av_read_frame(movie, packet) < 0) exit(1);
        for (int n = 0; n < packet->size; n++) sum += packet->data[n];
        av_packet_unref(packet);
    }
    av_packet_free(&packet);
}

int main(int count, char **words) {
    film = count > 1 ? words[1] : "";
    double opening = median(open_it);
    movie = opened();
    double found = median(at_random), listed = median(all);
    printf("%-12s %9.2f %9s %9.1f %9.2f %9.3f\n", "libavformat", opening * 1e3, "-", found * 1e9 / SAMPLES, listed * 1e3,
           median(read_at_random) * 1e3);
    avformat_close_input(&movie);
    return 0;
}
