/* example FILE          lists the tracks of an MP4 file
 * example FILE TRACK    lists the samples of a track, a line each: its number, offset and size in bytes, start,
 *                       duration and rendering offset in ticks of the track, and 1 for a sync sample or 0
 */
#include "mp4.h"

#include <inttypes.h>
#include <stdio.h>
#include <stdlib.h>

/* How many samples are asked for in one call. */
enum { SAMPLES = 4096 };

/* A file whose bytes were read. */
struct file {
    uint8_t *bytes;
    size_t size;
};

/* Prints why a call was refused, after a number if that is not 0. */
static void print_refusal(FILE *out, uint32_t number, const mp4_answer *refused) {
    uint8_t words[200];
    mp4_answer answer = mp4_error_text(refused, words, sizeof words);
    if (number) fprintf(out, "%" PRIu32 " ", number);
    fprintf(out, "%.*s\n", (int)answer.filled, (const char *)words);
}

/* Reads a file; its bytes are NULL where it can't be read. */
static struct file read_file(const char *name) {
    struct file file = {NULL, 0};
    size_t room = 1 << 16;
    FILE *in = fopen(name, "rb");
    uint8_t *bytes = in ? (uint8_t *)malloc(room) : NULL;
    while (bytes) {
        size_t read = fread(bytes + file.size, 1, room - file.size, in);
        uint8_t *more;
        file.size += read;
        if (!read) break;
        if (file.size < room) continue;
        more = (uint8_t *)realloc(bytes, room *= 2);
        if (!more) free(bytes);
        bytes = more;
    }
    if (in) fclose(in);
    file.bytes = bytes;
    return file;
}

/* Prints a track: its id, handler, sample entry, timescale, duration in ticks, samples and language. */
static void print_track(const mp4_track *track) {
    printf("track %" PRIu32 " %.4s", track->id, (const char *)track->handler);
    printf(" %.4s", track->has_sample_entry ? (const char *)track->sample_entry : "-");
    printf(" %" PRIu32 " %" PRIu64, track->timescale, track->duration);
    if (track->has_sample_count) printf(" %" PRIu32, track->sample_count);
    else printf(" -");
    printf(" %.3s\n", (const char *)track->language);
}

static int print_tracks(struct file file) {
    mp4_answer answer = mp4_tracks(file.bytes, file.size, NULL, 0);
    mp4_track *tracks = (mp4_track *)calloc((size_t)answer.count + 1, sizeof *tracks);
    if (!tracks) return 1;
    if (!answer.code) answer = mp4_tracks(file.bytes, file.size, tracks, (size_t)answer.count);
    if (answer.code) print_refusal(stderr, 0, &answer);
    for (uint64_t k = 0; k < answer.filled; k++) print_track(&tracks[k]);
    free(tracks);
    return answer.code != MP4_OK;
}

/* Prints the line of a sample, or that it isn't whole in the file. */
static int print_sample(struct file file, uint32_t number, const mp4_sample *sample) {
    if (!mp4_sample_bytes(file.bytes, file.size, sample)) {
        printf("%" PRIu32 " end of data\n", number);
        return 0;
    }
    printf("%" PRIu32 " %" PRIu64 " %" PRIu32 " %" PRIu64, number, sample->offset, sample->size, sample->start_time);
    printf(" %" PRIu32 " %" PRId32 " %d\n", sample->duration, sample->rendering_offset, sample->is_sync);
    return 1;
}

/* Prints the lines of the samples of a track, some at a time, up to the first that isn't there. */
static int print_samples(struct file file, uint32_t track_id) {
    static mp4_sample samples[SAMPLES];
    mp4_answer answer = mp4_samples(file.bytes, file.size, track_id, 1, NULL, 0);
    uint64_t count = answer.count, first = 1;
    if (answer.code) {
        print_refusal(stderr, 0, &answer);
        return 1;
    }
    while (first <= count) {
        size_t room = count - first < SAMPLES ? (size_t)(count - first) + 1 : SAMPLES;
        answer = mp4_samples(file.bytes, file.size, track_id, (uint32_t)first, samples, room);
        for (uint64_t k = 0; k < answer.filled; k++)
            if (!print_sample(file, (uint32_t)(first + k), &samples[k])) return 0;
        first += answer.filled;
        if (answer.filled == room) continue;
        if (answer.code) print_refusal(stdout, (uint32_t)first, &answer);
        else printf("%" PRIu64 " none\n", first);
        return 0;
    }
    return 0;
}

int main(int argc, char **argv) {
    struct file file;
    int status;
    if (argc != 2 && argc != 3) {
        fprintf(stderr, "usage: %s FILE [TRACK]\n", argv[0]);
        return 2;
    }
    file = read_file(argv[1]);
    if (!file.bytes) {
        fprintf(stderr, "%s can't be read\n", argv[1]);
        return 1;
    }
    status = argc == 2 ? print_tracks(file) : print_samples(file, (uint32_t)strtoul(argv[2], NULL, 10));
    free(file.bytes);
    return status;
}
