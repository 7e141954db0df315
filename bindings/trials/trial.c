/* What scripts/callers asks of the library from C; trial.rs and trial.py answer the same from Rust and Python.
 *
 *   trial list             the samples of each file that a line of standard input names
 *   trial faults           why each of these files doesn't open, or an empty line
 *   trial reasons          the same, and what it is that is invalid
 *   trial facts            all that each of these files says of its movie, its tracks and its work, and the samples
 *                          that are found at the edges of times and numbers
 *   trial nulls            nothing where NULL is refused in place of each pointer to what is there, and by each call
 *   trial words            the words of each refusal
 *   trial front FOLDER     moves the movie box of each of these files to the front: what comes of the file of line K is
 *                          the file K of the folder
 *   trial gather FOLDER    gathers the fragments of each of them likewise
 *   trial choose FOLDER ID..   likewise the tracks of these ids, of which there are at most 8
 *   trial write OUT        makes the movie of a script from standard input
 *   trial large FILE       the samples of a file; on standard error the microseconds and the KiB of memory that it took
 */
#define _GNU_SOURCE
#include "mp4.h"

#include <fcntl.h>
#include <stdio.h>
#include <stdlib.h>
#include <string.h>
#include <sys/mman.h>
#include <sys/stat.h>
#include <time.h>
#include <unistd.h>

typedef struct file {
    void *bytes;
    size_t size;
} file;

/* A list that grows: of rows of one size. */
typedef struct list {
    void *rows;
    size_t count;
} list;

static void give_up(const char *why) {
    fprintf(stderr, "trial: %s\n", why);
    exit(2);
}

/* Room for so many rows; a row more, so that it is never NULL. */
static void *room_for(uint64_t count, size_t size) {
    void *room = calloc((size_t)count + 1, size);
    if (!room) give_up("out of memory");
    return room;
}

static void *added(list *rows, size_t size, size_t more) {
    rows->rows = realloc(rows->rows, (rows->count + more + 1) * size);
    if (!rows->rows) give_up("out of memory");
    rows->count += more;
    return (char *)rows->rows + (rows->count - more) * size;
}

/* The bytes of a file, mapped into memory. */
static file map_file(const char *name) {
    struct stat facts;
    file mapped = {NULL, 0};
    int handle = open(name, O_RDONLY);
    if (handle < 0 || fstat(handle, &facts) != 0) give_up("a file can't be read");
    if (facts.st_size > 0) {
        mapped.size = (size_t)facts.st_size;
        mapped.bytes = mmap(NULL, mapped.size, PROT_READ, MAP_PRIVATE, handle, 0);
        if (mapped.bytes == MAP_FAILED) give_up("a file can't be mapped");
    }
    close(handle);
    return mapped;
}

static void unmap(file mapped) {
    if (mapped.bytes) munmap(mapped.bytes, mapped.size);
}

static void print_text(mp4_answer answer) {
    char text[90];
    mp4_answer said = mp4_error_text(&answer, (uint8_t *)text, sizeof text);
    printf("%.*s\n", (int)said.filled, text);
}

/* A call that fills in elements of one size. What else it is asked with is behind a pointer. */
typedef mp4_answer (*filling_call)(const void *asked, void *elements, size_t room);

/* What stands in each byte of a room before a call. */
enum { UNTOUCHED = 0xa5 };

static int are_untouched(const uint8_t *bytes, size_t size) {
    while (size > 0 && *bytes == UNTOUCHED) bytes++, size--;
    return size == 0;
}

/* Prints a mark where a call fills a room otherwise than it should: none, less than all, just all or more. Of a list as
 * many elements are filled in as have room, and of bytes all or none. What lies after them isn't touched. */
static void try_rooms(const char *name, filling_call call, const void *asked, size_t size, int is_list) {
    mp4_answer none = call(asked, NULL, 0);
    uint64_t count = none.count;
    if (none.code != MP4_OK || count > 200000) return;
    size_t bytes = ((size_t)count + 2) * size;
    uint8_t *whole = room_for(count + 2, size), *part = room_for(count + 2, size);
    memset(whole, UNTOUCHED, bytes);
    mp4_answer all = call(asked, whole, (size_t)count + 2);
    uint64_t rooms[] = {0, 1, count / 2, count ? count - 1 : 0, count, count + 1};
    for (size_t k = 0; k < sizeof rooms / sizeof *rooms; k++) {
        size_t room = (size_t)rooms[k];
        memset(part, UNTOUCHED, bytes);
        mp4_answer answer = call(asked, room ? part : NULL, room);
        uint64_t filled = room < all.filled ? (is_list ? room : 0) : all.filled;
        size_t end = (size_t)filled * size;
        uint32_t code = room > all.filled ? all.code : MP4_OK;
        if (answer.count != all.count || answer.filled != filled || (is_list && answer.code != code) ||
            memcmp(part, whole, end) != 0 || !are_untouched(part + end, bytes - end)) {
            printf("(%s: a room for %llu of %llu isn't filled as it should be)\n", name, (unsigned long long)room,
                   (unsigned long long)count);
        }
    }
    free(whole);
    free(part);
}

static mp4_answer brands_call(const void *asked, void *elements, size_t room) {
    const file *from = asked;
    return mp4_brands(from->bytes, from->size, elements, room);
}

static mp4_answer tracks_call(const void *asked, void *elements, size_t room) {
    const file *from = asked;
    return mp4_tracks(from->bytes, from->size, elements, room);
}

static mp4_answer front_call(const void *asked, void *elements, size_t room) {
    const file *from = asked;
    return mp4_move_to_front(from->bytes, from->size, elements, room);
}

static mp4_answer gather_call(const void *asked, void *elements, size_t room) {
    const file *from = asked;
    return mp4_gather(from->bytes, from->size, elements, room);
}

/* The ids of the tracks that are chosen. */
static uint32_t chosen[8];
static size_t chosen_count;

static mp4_answer choose_call(const void *asked, void *elements, size_t room) {
    const file *from = asked;
    return mp4_choose(from->bytes, from->size, chosen_count ? chosen : NULL, chosen_count, elements, room);
}

static mp4_answer words_call(const void *asked, void *elements, size_t room) {
    return mp4_error_text(asked, elements, room);
}

static mp4_answer reason_call(const void *asked, void *elements, size_t room) {
    const file *from = asked;
    return mp4_open_error_text(from->bytes, from->size, elements, room);
}

/* The samples of a track from a number on. */
typedef struct later_samples {
    file from;
    uint32_t track_id, first;
} later_samples;

static mp4_answer samples_call(const void *asked, void *elements, size_t room) {
    const later_samples *later = asked;
    mp4_answer answer = mp4_samples(later->from.bytes, later->from.size, later->track_id, later->first, elements, room);
    /* how many there are from there on */
    if (later->first > 1) answer.count -= answer.count < later->first ? answer.count : later->first - 1;
    return answer;
}

/* The samples of a track, a line each, as `mp4_tool samples` prints them. */
static void list_track(file from, const mp4_track *track) {
    static const mp4_answer end_of_data = {.code = MP4_END_OF_DATA};
    static const mp4_answer too_large = {.code = MP4_TOO_LARGE, .limit = MP4_LIMIT_VALUE};
    printf("track %u\n", track->id);
    if (!track->has_sample_count) {
        print_text(too_large);
        return;
    }
    mp4_sample *samples = room_for(track->sample_count, sizeof *samples);
    mp4_answer answer = mp4_samples(from.bytes, from.size, track->id, 1, samples, track->sample_count);
    uint64_t number = 0;
    while (number < answer.filled) {
        const mp4_sample *sample = &samples[number++];
        printf("%llu ", (unsigned long long)number);
        if (!mp4_sample_bytes(from.bytes, from.size, sample)) {
            print_text(end_of_data);
            free(samples);
            return;
        }
        printf("%llu %u %llu %u %d %d\n", (unsigned long long)sample->offset, sample->size,
               (unsigned long long)sample->start_time, sample->duration, sample->rendering_offset, sample->is_sync);
    }
    if (answer.code != MP4_OK) {
        printf("%llu ", (unsigned long long)number + 1);
        print_text(answer);
    } else if (number < track->sample_count) {
        printf("%llu none\n", (unsigned long long)number + 1);
    }
    free(samples);
}

static void list_file(file from) {
    mp4_movie movie;
    mp4_answer answer = mp4_open(from.bytes, from.size, &movie);
    if (answer.code != MP4_OK) {
        print_text(answer);
        return;
    }
    mp4_track *tracks = room_for(movie.track_count, sizeof *tracks);
    answer = mp4_tracks(from.bytes, from.size, tracks, movie.track_count);
    for (uint64_t k = 0; k < answer.filled; k++) list_track(from, &tracks[k]);
    free(tracks);
}

/* Bytes in digits; a full stop for none. */
static void print_digits(const uint8_t *bytes, uint64_t size) {
    printf(" ");
    if (size == 0) printf(".");
    for (uint64_t k = 0; k < size; k++) printf("%02x", bytes[k]);
}

/* A number that the file may not say: then it is 0, and a dash is printed. */
static void print_marked(uint8_t mark, uint64_t number) {
    if (mark > 1 || (!mark && number != 0)) printf(" (wrong mark)");
    else if (mark) printf(" %llu", (unsigned long long)number);
    else printf(" -");
}

/* So many ticks in whole seconds, and the nanoseconds after them; a dash without ticks in a second. */
static void print_time(uint64_t ticks, uint32_t timescale) {
    if (timescale == 0) printf(" -");
    else printf(" %llu %llu", (unsigned long long)(ticks / timescale),
                (unsigned long long)(ticks % timescale * 1000000000 / timescale));
}

static void print_track(const mp4_track *track) {
    printf("track %u", track->id);
    print_digits(track->handler, 4);
    if (track->has_sample_entry) print_digits(track->sample_entry, 4);
    else printf(" -");
    print_digits(track->language, 3);
    printf(" %u %llu %u %u", track->timescale, (unsigned long long)track->duration, track->width, track->height);
    print_marked(track->has_sample_count, track->sample_count);
    print_marked(track->has_frames_per_second, track->frames_per_second);
    print_marked(track->has_bits_per_second, track->bits_per_second);
    print_marked(track->has_audio_profile, track->audio_profile);
    print_marked(track->has_frequency_index, track->frequency_index);
    print_marked(track->has_channels, track->channels);
    print_marked(track->has_video_profile, track->video_profile);
    print_marked(track->has_video_profile, track->video_compatibility);
    print_marked(track->has_video_profile, track->video_level);
    print_time(track->duration, track->timescale);
    printf("\n");
}

/* A call that gives bytes: they have to be the same in each room that is large enough, and none in a smaller one. */
typedef mp4_answer (*bytes_call)(file from, uint32_t id, uint32_t which, uint8_t *bytes, size_t room);

static mp4_answer set_call(file from, uint32_t id, uint32_t which, uint8_t *bytes, size_t room) {
    return mp4_parameter_set(from.bytes, from.size, id, which, bytes, room);
}

static mp4_answer metadata_call(file from, uint32_t id, uint32_t which, uint8_t *bytes, size_t room) {
    (void)id;
    return mp4_metadata(from.bytes, from.size, which, bytes, room);
}

static void print_bytes(file from, bytes_call call, const char *name, uint32_t id, uint32_t which) {
    mp4_answer answer = call(from, id, which, NULL, 0);
    printf("%s %u", name, which);
    if (answer.code != MP4_OK) {
        printf(" ");
        print_text(answer);
        return;
    }
    uint8_t *bytes = room_for(answer.count + 1, 1);
    if (answer.count > 0 && call(from, id, which, bytes, answer.count - 1).filled != 0) printf(" (filled too much)");
    if (bytes[0] != 0) printf(" (changed)");
    uint64_t exact = call(from, id, which, bytes, answer.count).filled;
    uint64_t in_more = call(from, id, which, bytes, answer.count + 1).filled;
    if (exact != answer.count || in_more != exact) printf(" (not filled)");
    print_digits(bytes, exact);
    printf("\n");
    free(bytes);
}

static void print_number(const char *name, uint64_t key, mp4_answer answer, uint32_t number) {
    printf("%s %llu ", name, (unsigned long long)key);
    if (answer.code != MP4_OK) print_text(answer);
    else if (number) printf("%u\n", number);
    else printf("-\n");
}

/* Prints a mark where what is found in rows isn't what is found in the file. */
static void compare_found(const char *name, mp4_answer in_rows, uint64_t row, uint32_t number) {
    if (in_rows.code != MP4_OK || in_rows.filled != (row != 0) || row != number) {
        printf("(%s is row %llu, and number %u)\n", name, (unsigned long long)row, number);
    }
}

/* The rows of a track, and whether they say of each time and each number what the file says: all samples that have a
 * time are there, and their times rise. */
static int has_rows(file from, const mp4_track *track, mp4_sample **rows) {
    uint64_t count = track->has_sample_count && track->sample_count <= 200000 ? track->sample_count : 0;
    *rows = room_for(count, sizeof **rows);
    mp4_answer answer = mp4_samples(from.bytes, from.size, track->id, 1, *rows, count);
    uint32_t last = 0;
    mp4_sample_at(from.bytes, from.size, track->id, UINT64_MAX, &last);
    int all = answer.code == MP4_OK && answer.filled == count && answer.count == count && last == count;
    for (uint64_t k = 1; all && k < count; k++) all = (*rows)[k - 1].start_time <= (*rows)[k].start_time;
    return all;
}

/* Prints a mark where a track's rows say something else than its file, at and beside the time of each row. */
static void compare_rows(file from, const mp4_track *track) {
    mp4_sample *rows;
    if (has_rows(from, track, &rows)) {
        uint64_t count = track->sample_count, row;
        for (uint64_t k = 0; k < count; k += 1 + count / 50) {
            uint64_t start = rows[k].start_time;
            uint32_t number = 0;
            mp4_answer answer;
            for (uint64_t time = start - (start != 0); time <= start + 1; time++) {
                number = 0;
                mp4_sample_at(from.bytes, from.size, track->id, time, &number);
                answer = mp4_row_at(rows, count, time, &row);
                compare_found("the sample", answer, row, number);
            }
            number = 0;
            mp4_sync_sample_at_or_before(from.bytes, from.size, track->id, (uint32_t)k, &number);
            answer = mp4_sync_row_at_or_before(rows, count, k, &row);
            compare_found("the sync sample", answer, row, number);
        }
    }
    free(rows);
}

static void print_at(file from, const mp4_track *track, uint64_t time) {
    uint32_t number = 0;
    mp4_answer answer = mp4_sample_at(from.bytes, from.size, track->id, time, &number);
    print_number("at", time, answer, number);
}

/* The samples that are found when the first ones begin, and a tick before and after that. */
static void print_first(file from, const mp4_track *track) {
    mp4_sample rows[8];
    mp4_answer answer = mp4_samples(from.bytes, from.size, track->id, 1, rows, 8);
    uint64_t count = answer.filled < answer.count ? answer.filled : answer.count;
    for (uint64_t k = 0; k < count && mp4_sample_bytes(from.bytes, from.size, &rows[k]); k++) {
        uint64_t start = rows[k].start_time;
        if (start > 0) print_at(from, track, start - 1);
        print_at(from, track, start);
        if (start < UINT64_MAX) print_at(from, track, start + 1);
    }
}

/* The samples that are found at the edges of a track's times and numbers, and beside them. */
static void print_found(file from, const mp4_track *track) {
    uint64_t times[] = {0, 1, 2, 3, 5, 10, 20, 50, 100, 200, 500, 1000, 2000, 5000, 10000, 20000, 50000, 100000,
                        track->duration ? track->duration - 1 : 0, track->duration, UINT64_MAX};
    uint32_t last = track->has_sample_count ? track->sample_count : 0;
    uint32_t numbers[] = {0, 1, 2, last, last + 1, UINT32_MAX};
    uint32_t number;
    for (size_t k = 0; k < sizeof times / sizeof *times; k++) print_at(from, track, times[k]);
    if (track->has_sample_count) print_first(from, track);
    for (size_t k = 0; k < sizeof numbers / sizeof *numbers; k++) {
        number = 0;
        mp4_answer answer = mp4_sync_sample_at_or_before(from.bytes, from.size, track->id, numbers[k], &number);
        print_number("sync", numbers[k], answer, number);
    }
    compare_rows(from, track);
}

static void print_brands(file from, uint64_t count) {
    mp4_brand *brands = room_for(count, sizeof *brands);
    mp4_answer answer = mp4_brands(from.bytes, from.size, brands, count);
    printf("brands");
    if (answer.filled != count || answer.count != count) printf(" (not filled)");
    for (uint64_t k = 0; k < count; k++) print_digits(brands[k].code, 4);
    printf("\n");
    free(brands);
}

/* All that a file says. */
static void print_facts(file from) {
    mp4_movie movie;
    mp4_answer answer = mp4_open(from.bytes, from.size, &movie);
    if (answer.code != MP4_OK) {
        print_text(answer);
        return;
    }
    printf("movie %llu %llu %llu %llu %u", (unsigned long long)movie.size, (unsigned long long)movie.duration,
           (unsigned long long)movie.creation_time, (unsigned long long)movie.modification_time, movie.header_version);
    printf(" %u %u %u", movie.timescale, movie.minor_version, movie.is_fragmented);
    print_digits(movie.major_brand, 4);
    print_time(movie.duration, movie.timescale);
    printf("\n");
    print_brands(from, movie.brand_count);
    for (uint32_t key = MP4_TITLE; key <= MP4_SUMMARY; key++) print_bytes(from, metadata_call, "metadata", 0, key);
    mp4_track *tracks = room_for(movie.track_count, sizeof *tracks);
    answer = mp4_tracks(from.bytes, from.size, tracks, movie.track_count);
    if (answer.filled != movie.track_count) printf("(not filled)\n");
    try_rooms("mp4_brands", brands_call, &from, sizeof(mp4_brand), 1);
    try_rooms("mp4_tracks", tracks_call, &from, sizeof(mp4_track), 1);
    for (uint64_t k = 0; k < answer.filled; k++) {
        for (uint32_t first = 1; first <= 3; first += 2) {
            later_samples later = {from, tracks[k].id, first};
            try_rooms("mp4_samples", samples_call, &later, sizeof(mp4_sample), 1);
        }
        print_track(&tracks[k]);
        print_bytes(from, set_call, "set", tracks[k].id, MP4_SEQUENCE_SET);
        print_bytes(from, set_call, "set", tracks[k].id, MP4_PICTURE_SET);
        print_found(from, &tracks[k]);
    }
    free(tracks);
}

static void print_fault(file from) {
    mp4_movie movie;
    mp4_answer answer = mp4_open(from.bytes, from.size, &movie);
    if (answer.code != MP4_OK) print_text(answer);
    else printf("\n");
}

/* Why a file doesn't open, and what it is that is invalid; an empty line for one that opens. */
static void print_reason(file from) {
    char text[120];
    mp4_answer said = mp4_open_error_text(from.bytes, from.size, (uint8_t *)text, sizeof text);
    try_rooms("mp4_open_error_text", reason_call, &from, 1, 0);
    if (said.filled == 8 && memcmp(text, "no error", 8) == 0) printf("\n");
    else printf("%.*s\n", (int)said.filled, text);
}

/* Does something with each file that a line of standard input names, after a line with its name. */
static void each_file(void (*act)(file)) {
    char *name = NULL;
    size_t room = 0;
    ssize_t length;
    while ((length = getline(&name, &room, stdin)) > 0) {
        name[length - 1] = 0;
        printf("%s\n", name);
        file from = map_file(name);
        act(from);
        unmap(from);
    }
    free(name);
}

static void write_file(const char *name, const uint8_t *bytes, uint64_t size) {
    FILE *out = fopen(name, "wb");
    if (!out || fwrite(bytes, 1, size, out) != size || fclose(out) != 0) give_up("a file isn't written");
}

/* How files are rewritten, and where to. */
static struct rewriting {
    const char *name;
    filling_call call;
    const char *folder;
    unsigned long line;
} rewriting;

/* Rewrites a file; says how many bytes it has then, or why it isn't. A refusal leaves the room as it was. */
static void rewrite_file(file from) {
    char name[4096];
    uint8_t *bytes = room_for(from.size, 1);
    memset(bytes, UNTOUCHED, from.size);
    mp4_answer answer = rewriting.call(&from, bytes, from.size);
    snprintf(name, sizeof name, "%s/%lu", rewriting.folder, ++rewriting.line);
    if (answer.code != MP4_OK) {
        print_text(answer);
        if (answer.filled != 0 || !are_untouched(bytes, from.size)) printf("(%s: filled)\n", rewriting.name);
    } else {
        uint64_t count = answer.count;
        free(bytes);
        bytes = room_for(count, 1);
        answer = rewriting.call(&from, bytes, count);
        write_file(name, bytes, answer.filled);
        printf("wrote %llu bytes\n", (unsigned long long)count);
        try_rooms(rewriting.name, rewriting.call, &from, 1, 0);
    }
    free(bytes);
}

static void rewrite_files(const char *name, filling_call call, const char *folder) {
    rewriting = (struct rewriting){name, call, folder, 0};
    each_file(rewrite_file);
}

static void choose_tracks(const char *folder, char **ids, int count) {
    if (count > 8) give_up("there are more than 8 ids");
    for (chosen_count = 0; chosen_count < (size_t)count; chosen_count++) {
        chosen[chosen_count] = (uint32_t)strtoul(ids[chosen_count], NULL, 10);
    }
    rewrite_files("mp4_choose", choose_call, folder);
}

static uint64_t add_bytes(list *data, const void *bytes, size_t size) {
    uint64_t start = data->count;
    memcpy(added(data, 1, size), bytes, size);
    return start;
}

/* Adds the bytes that hexadecimal digits write, and answers where they begin. */
static uint64_t add_digits(list *data, const char *digits, uint32_t *size) {
    uint64_t start = data->count;
    for (*size = 0; digits[0] && digits[1]; digits += 2, ++*size) {
        unsigned byte;
        if (sscanf(digits, "%2x", &byte) != 1) give_up("a parameter set isn't digits");
        *(uint8_t *)added(data, 1, 1) = (uint8_t)byte;
    }
    return start;
}

static mp4_new_track track_of(const char *line, list *data) {
    char kind[8], sequence[600] = "", picture[600] = "";
    unsigned numbers[5] = {0};
    mp4_new_track track;
    memset(&track, 0, sizeof track);
    if (sscanf(line, "track %7s %u %u %u", kind, &track.timescale, &numbers[0], &numbers[1]) < 2) {
        give_up("a track isn't one");
    }
    if (strcmp(kind, "text") == 0) {
        memcpy(track.sample_entry, "tx3g", 4);
        return track;
    }
    if (strcmp(kind, "aac") == 0) {
        memcpy(track.sample_entry, "mp4a", 4);
        sscanf(line, "track aac %*u %u %u %u %u", &numbers[0], &numbers[1], &numbers[2], &numbers[3]);
        track.bits_per_second = numbers[0];
        track.audio_profile = (uint8_t)numbers[1];
        track.frequency_index = (uint8_t)numbers[2];
        track.channels = (uint8_t)numbers[3];
        return track;
    }
    memcpy(track.sample_entry, strcmp(kind, "avc") == 0 ? "avc1" : strcmp(kind, "hevc") == 0 ? "hev1" : "vp09", 4);
    track.width = (uint16_t)numbers[0];
    track.height = (uint16_t)numbers[1];
    sscanf(line, "track avc %*u %*u %*u %599s %599s", sequence, picture);
    track.sequence_set = add_digits(data, sequence, &track.sequence_set_size);
    track.picture_set = add_digits(data, picture, &track.picture_set_size);
    return track;
}

static mp4_sample sample_of(const char *line, size_t length, list *data) {
    mp4_sample sample;
    unsigned is_sync;
    int end;
    memset(&sample, 0, sizeof sample);
    if (sscanf(line, "sample %u %u %d %u%n", &sample.track_id, &sample.duration, &sample.rendering_offset, &is_sync,
               &end) != 4) {
        give_up("a line is neither a track nor a sample");
    }
    sample.is_sync = (uint8_t)is_sync;
    sample.size = (uint32_t)(length - (size_t)end - 1);
    sample.offset = add_bytes(data, line + end + 1, sample.size);
    return sample;
}

static void write_movie(const char *name) {
    static const mp4_brand brands[4] = {{"isom"}, {"iso2"}, {"avc1"}, {"mp41"}};
    static const mp4_new_movie movie = {1000, 512, {'i', 's', 'o', 'm'}};
    list tracks = {NULL, 0}, samples = {NULL, 0}, data = {NULL, 0};
    char *line = NULL;
    size_t room = 0;
    ssize_t length;
    while ((length = getline(&line, &room, stdin)) > 0) {
        line[--length] = 0;
        if (strncmp(line, "track", 5) == 0) {
            mp4_new_track track = track_of(line, &data);
            *(mp4_new_track *)added(&tracks, sizeof track, 1) = track;
        } else {
            mp4_sample sample = sample_of(line, (size_t)length, &data);
            *(mp4_sample *)added(&samples, sizeof sample, 1) = sample;
        }
    }
    free(line);
    mp4_answer answer = mp4_write(&movie, brands, 4, tracks.rows, tracks.count, samples.rows, samples.count, data.rows,
                                  data.count, NULL, 0);
    if (answer.code != MP4_OK) {
        print_text(answer);
        exit(1);
    }
    size_t size = (size_t)answer.count;
    uint8_t *bytes = room_for(answer.count + 1, 1);
    memset(bytes, UNTOUCHED, size + 1);
    for (size_t room = size - 1; room <= size + 1; room += 2) {
        answer = mp4_write(&movie, brands, 4, tracks.rows, tracks.count, samples.rows, samples.count, data.rows,
                           data.count, bytes, room);
        uint64_t filled = room < size ? 0 : size;
        if (answer.code != MP4_OK || answer.count != size || answer.filled != filled ||
            !are_untouched(bytes + filled, size + 1 - filled)) {
            give_up("a room isn't filled as it should be");
        }
    }
    memset(bytes, UNTOUCHED, size + 1);
    answer = mp4_write(&movie, brands, 4, tracks.rows, tracks.count, samples.rows, samples.count, data.rows, data.count,
                       bytes, size);
    if (answer.code != MP4_OK || bytes[size] != UNTOUCHED) give_up("a movie isn't written");
    write_file(name, bytes, answer.filled);
    free(bytes);
    free(tracks.rows);
    free(samples.rows);
    free(data.rows);
}

static void is_refused(const char *call, mp4_answer answer) {
    if (answer.code != MP4_NULL_POINTER) printf("%s takes NULL\n", call);
}

static void is_answered(const char *call, mp4_answer answer) {
    if (answer.code == MP4_NULL_POINTER) printf("%s refuses NULL for nothing\n", call);
}

/* Gives NULL for each pointer to what is there, which is refused, and for each array of no elements, which isn't. */
static void give_null(void) {
    static const mp4_new_movie movie = {1000, 0, {'i', 's', 'o', 'm'}};
    static const uint8_t byte = 0;
    mp4_answer answer = {0, 0, 0, 0, 0, 0, 0, 0, {0}, {0}, 0};
    mp4_movie facts;
    uint32_t number;
    uint64_t row;
    is_refused("mp4_open", mp4_open(NULL, 1, &facts));
    is_refused("mp4_open", mp4_open(&byte, 1, NULL));
    is_answered("mp4_open", mp4_open(NULL, 0, &facts));
    is_refused("mp4_brands", mp4_brands(NULL, 1, NULL, 0));
    is_refused("mp4_brands", mp4_brands(&byte, 1, NULL, 1));
    is_answered("mp4_brands", mp4_brands(NULL, 0, NULL, 0));
    is_refused("mp4_tracks", mp4_tracks(NULL, 1, NULL, 0));
    is_refused("mp4_tracks", mp4_tracks(&byte, 1, NULL, 1));
    is_answered("mp4_tracks", mp4_tracks(NULL, 0, NULL, 0));
    is_refused("mp4_samples", mp4_samples(NULL, 1, 1, 1, NULL, 0));
    is_refused("mp4_samples", mp4_samples(&byte, 1, 1, 1, NULL, 1));
    is_answered("mp4_samples", mp4_samples(NULL, 0, 1, 1, NULL, 0));
    is_refused("mp4_sample_at", mp4_sample_at(NULL, 1, 1, 0, &number));
    is_refused("mp4_sample_at", mp4_sample_at(&byte, 1, 1, 0, NULL));
    is_refused("mp4_sync_sample_at_or_before", mp4_sync_sample_at_or_before(NULL, 1, 1, 1, &number));
    is_refused("mp4_sync_sample_at_or_before", mp4_sync_sample_at_or_before(&byte, 1, 1, 1, NULL));
    is_refused("mp4_metadata", mp4_metadata(NULL, 1, MP4_TITLE, NULL, 0));
    is_refused("mp4_metadata", mp4_metadata(&byte, 1, MP4_TITLE, NULL, 1));
    is_answered("mp4_metadata", mp4_metadata(NULL, 0, MP4_TITLE, NULL, 0));
    is_refused("mp4_parameter_set", mp4_parameter_set(NULL, 1, 1, MP4_PICTURE_SET, NULL, 0));
    is_refused("mp4_parameter_set", mp4_parameter_set(&byte, 1, 1, MP4_PICTURE_SET, NULL, 1));
    is_refused("mp4_write", mp4_write(NULL, NULL, 0, NULL, 0, NULL, 0, NULL, 0, NULL, 0));
    is_refused("mp4_write", mp4_write(&movie, NULL, 1, NULL, 0, NULL, 0, NULL, 0, NULL, 0));
    is_refused("mp4_write", mp4_write(&movie, NULL, 0, NULL, 1, NULL, 0, NULL, 0, NULL, 0));
    is_refused("mp4_write", mp4_write(&movie, NULL, 0, NULL, 0, NULL, 1, NULL, 0, NULL, 0));
    is_refused("mp4_write", mp4_write(&movie, NULL, 0, NULL, 0, NULL, 0, NULL, 1, NULL, 0));
    is_refused("mp4_write", mp4_write(&movie, NULL, 0, NULL, 0, NULL, 0, NULL, 0, NULL, 1));
    is_answered("mp4_write", mp4_write(&movie, NULL, 0, NULL, 0, NULL, 0, NULL, 0, NULL, 0));
    is_refused("mp4_move_to_front", mp4_move_to_front(NULL, 1, NULL, 0));
    is_refused("mp4_move_to_front", mp4_move_to_front(&byte, 1, NULL, 1));
    is_answered("mp4_move_to_front", mp4_move_to_front(NULL, 0, NULL, 0));
    is_refused("mp4_gather", mp4_gather(NULL, 1, NULL, 0));
    is_refused("mp4_gather", mp4_gather(&byte, 1, NULL, 1));
    is_answered("mp4_gather", mp4_gather(NULL, 0, NULL, 0));
    is_refused("mp4_choose", mp4_choose(NULL, 1, NULL, 0, NULL, 0));
    is_refused("mp4_choose", mp4_choose(&byte, 1, NULL, 1, NULL, 0));
    is_refused("mp4_choose", mp4_choose(&byte, 1, NULL, 0, NULL, 1));
    is_answered("mp4_choose", mp4_choose(NULL, 0, NULL, 0, NULL, 0));
    is_refused("mp4_row_at", mp4_row_at(NULL, 1, 0, &row));
    is_refused("mp4_row_at", mp4_row_at(NULL, 0, 0, NULL));
    is_answered("mp4_row_at", mp4_row_at(NULL, 0, 0, &row));
    is_refused("mp4_sync_row_at_or_before", mp4_sync_row_at_or_before(NULL, 1, 1, &row));
    is_refused("mp4_sync_row_at_or_before", mp4_sync_row_at_or_before(NULL, 0, 1, NULL));
    is_answered("mp4_sync_row_at_or_before", mp4_sync_row_at_or_before(NULL, 0, 1, &row));
    is_refused("mp4_error_text", mp4_error_text(NULL, NULL, 0));
    is_refused("mp4_error_text", mp4_error_text(&answer, NULL, 1));
    is_refused("mp4_open_error_text", mp4_open_error_text(NULL, 1, NULL, 0));
    is_refused("mp4_open_error_text", mp4_open_error_text("", 0, NULL, 1));
    if (mp4_sample_bytes(NULL, 1, NULL) || mp4_sample_bytes(&byte, 1, NULL)) printf("mp4_sample_bytes takes NULL\n");
}

static uint64_t microseconds(void) {
    struct timespec now;
    clock_gettime(CLOCK_MONOTONIC, &now);
    return (uint64_t)now.tv_sec * 1000000 + (uint64_t)now.tv_nsec / 1000;
}

/* How many KiB this process holds in memory, those of mapped files among them. */
static long resident_kib(void) {
    char line[256];
    long kib = -1;
    FILE *status = fopen("/proc/self/status", "r");
    while (status && fgets(line, sizeof line, status)) sscanf(line, "VmRSS: %ld", &kib);
    if (status) fclose(status);
    return kib;
}

static void list_large(const char *name) {
    long before = resident_kib();
    uint64_t begun = microseconds();
    file from = map_file(name);
    list_file(from);
    uint64_t taken = microseconds() - begun;
    fprintf(stderr, "%llu %ld\n", (unsigned long long)taken, resident_kib() - before);
    unmap(from);
}

/* The words of each refusal, a line each, as it names these boxes, this track and this number. */
static void print_words(void) {
    mp4_answer answer = {.index = 48, .track_id = 7, .number = 12, .box_type = "stts", .second_box_type = "mvex"};
    for (answer.code = MP4_OK; answer.code <= MP4_SAME_IDS + 1; answer.code++) {
        if (answer.code != MP4_TOO_LARGE) print_text(answer);
        try_rooms("mp4_error_text", words_call, &answer, 1, 0);
    }
    answer.code = MP4_TOO_LARGE;
    for (answer.limit = 0; answer.limit <= MP4_LIMIT_VALUE + 1; answer.limit++) print_text(answer);
    /* no version of a box is so large */
    answer.code = MP4_UNSUPPORTED_BOX_VERSION;
    answer.number = 256;
    print_text(answer);
}

int main(int count, char **words) {
    const char *command = count > 1 ? words[1] : "";
    if (count == 2 && strcmp(command, "list") == 0) {
        each_file(list_file);
    } else if (count == 2 && strcmp(command, "faults") == 0) {
        each_file(print_fault);
    } else if (count == 2 && strcmp(command, "reasons") == 0) {
        each_file(print_reason);
    } else if (count == 2 && strcmp(command, "facts") == 0) {
        each_file(print_facts);
    } else if (count == 2 && strcmp(command, "nulls") == 0) {
        give_null();
    } else if (count == 2 && strcmp(command, "words") == 0) {
        print_words();
    } else if (count == 3 && strcmp(command, "front") == 0) {
        rewrite_files("mp4_move_to_front", front_call, words[2]);
    } else if (count == 3 && strcmp(command, "gather") == 0) {
        rewrite_files("mp4_gather", gather_call, words[2]);
    } else if (count >= 3 && strcmp(command, "choose") == 0) {
        choose_tracks(words[2], words + 3, count - 3);
    } else if (count == 3 && strcmp(command, "write") == 0) {
        write_movie(words[2]);
    } else if (count == 3 && strcmp(command, "large") == 0) {
        list_large(words[2]);
    } else {
        give_up("list | faults | reasons | facts | nulls | words | front FOLDER | gather FOLDER | choose FOLDER ID.. | "
                "write OUT | large FILE");
    }
    return 0;
}
