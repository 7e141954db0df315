/* mp4.h: MP4 files (ISO base media files, ISO/IEC 14496-12), read and written.
 *
 * The calls are those of the static library libmp4_c.a. Link it, and then liblibc_c.a, which passes requests for
 * memory on to malloc and free. C99 and C++11.
 *
 * - A file is bytes in memory: read, or mapped, so that of a large file only what a call reads is loaded. No call but
 *   mp4_move_to_front, mp4_gather, mp4_choose, mp4_write and mp4_sample_bytes looks at the bytes of samples.
 * - One call does one job. Nothing is kept between calls: there is no handle, and nothing to free. So each call that is
 *   given a file opens it anew; the rows of a track, which the caller keeps, are its index (mp4_samples).
 * - Each call answers a struct mp4_answer: its code is MP4_OK or says why the call was refused. No bytes of a file make
 *   a call crash, read outside of what it was given, or run forever.
 * - An array is a pointer and a number of elements. The pointer of an array of no elements may be NULL. A NULL pointer
 *   with elements is refused by MP4_NULL_POINTER.
 * - A list is asked for with room for a number of elements: `count` says how many there are, whatever the room, and
 *   `filled` how many were filled in. Ask with room 0 to know how many there are.
 * - What is filled in must not overlap what the call reads, nor what another thread reads or writes. Otherwise any
 *   number of threads may call at once, also on one file.
 * - A call takes about 38 KB of stack.
 * - Not from a signal handler, and not in a forked child of a process with threads: the library calls malloc and free.
 * - Tracks have ids; samples are numbered from 1. Times and durations are in ticks: those of a track in ticks of its
 *   timescale, that of a movie in ticks of the movie's.
 * - No struct has padding: two with equal fields have equal bytes. Reserved fields are zero in what is filled in, and
 *   are not looked at in what is given.
 */
#ifndef MP4_H
#define MP4_H

#include <stddef.h>
#include <stdint.h>

/* The version of this header: its three numbers, times 10000, 100 and 1. mp4_version() says that of the library that is
 * linked. */
#define MP4_VERSION 100
#define MP4_VERSION_TEXT "0.1.0"

#ifdef __cplusplus
extern "C" {
#endif

/* Why a call was refused. The comment says which fields of the answer name more. */
enum mp4_code {
    MP4_OK = 0,                        /* not refused */
    MP4_END_OF_DATA = 1,               /* the bytes end before what has to be read */
    MP4_OUT_OF_MEMORY = 2,             /* a request for memory was refused */
    MP4_INVALID_DATA = 3,              /* the bytes, or the numbers asked for, mean nothing */
    MP4_BOX_NOT_FOUND = 4,             /* a required box is missing: box_type */
    MP4_BOX2_NOT_FOUND = 5,            /* neither of two boxes is there: box_type, second_box_type */
    MP4_TRAK_NOT_FOUND = 6,            /* there is no such track: track_id */
    MP4_BOX_IN_TRAK_NOT_FOUND = 7,     /* a track lacks a box: track_id, box_type */
    MP4_BOX_IN_TRAF_NOT_FOUND = 8,     /* a fragment of a track lacks a box: track_id, box_type */
    MP4_BOX_IN_STBL_NOT_FOUND = 9,     /* a track's sample table lacks a box: track_id, box_type */
    MP4_ENTRY_IN_STBL_NOT_FOUND = 10,  /* a box of the sample table lacks an entry: track_id, box_type, number */
    MP4_ENTRY_IN_TRUN_NOT_FOUND = 11,  /* a run of a fragment lacks an entry: track_id, box_type, number */
    MP4_UNSUPPORTED_BOX_VERSION = 12,  /* a box is of a version that is not read: box_type, number */
    MP4_ENDED = 13,                    /* the writer has written its last byte; mp4_write never answers it */
    MP4_ZERO_TIMESCALE = 14,           /* a quotient by a timescale of 0 was asked for */
    MP4_TOO_LARGE = 15,                /* something passes its limit: limit */
    MP4_UNREPRESENTABLE = 16,          /* a value has no encoding in its field */
    MP4_NOT_PRESENT = 17,              /* the file has no such metadata */
    MP4_UNKNOWN_CHOICE = 18,           /* a number that isn't one of enum mp4_metadata_key or mp4_parameter_set_kind */
    MP4_NULL_POINTER = 19,             /* NULL for a struct, or for an array that has elements */
    MP4_TWICE = 20,                    /* there are two boxes of a type of which a movie has one: box_type */
    MP4_SAYS_PLACES = 21,              /* a box says places of the file that would be wrong: box_type, and in index the
                                        * byte at which it begins */
    MP4_TOO_MANY_SAMPLES = 22,         /* a track has more samples than are compared: track_id */
    MP4_OTHER_TRACKS = 23,             /* the tracks would be others */
    MP4_DIFFERS = 24,                  /* a sample would not be read as before: track_id, number */
    MP4_SAYS_OF_SAMPLES = 25,          /* a box says of samples what tables don't: box_type, and in index the byte at
                                        * which it begins */
    MP4_STARTS_ELSEWHERE = 26,         /* a sample doesn't begin when the one before it ends: track_id, number */
    MP4_SAME_IDS = 27                  /* two tracks have the same id */
};

/* What passes its limit, where the code is MP4_TOO_LARGE. */
enum mp4_limit {
    MP4_LIMIT_SAMPLE_BYTES = 1,        /* the bytes of one sample: at most 2^32 - 1 */
    MP4_LIMIT_SAMPLE_COUNT = 2,        /* the samples of one track: at most 2^32 - 1 */
    MP4_LIMIT_TRACK_DURATION = 3,      /* a track's duration in ticks of the movie: at most 2^64 - 1 */
    MP4_LIMIT_TRACK_COUNT = 4,         /* the tracks of a movie: at most 2^32 - 1 */
    MP4_LIMIT_BOX_SIZE = 5,            /* the bytes of a box that is written: at most 2^32 - 1 */
    MP4_LIMIT_VALUE = 6                /* a number that has to fit its field or its answer */
};

/* What mp4_write was refused at. */
enum mp4_part {
    MP4_PART_NONE = 0,                 /* not refused, or the answer of another call */
    MP4_PART_MOVIE = 1,                /* the movie and its brands */
    MP4_PART_TRACK = 2,                /* tracks[index], counted from 0 */
    MP4_PART_SAMPLE = 3,               /* samples[index], counted from 0 */
    MP4_PART_END = 4                   /* the end of the movie, after all tracks and samples were accepted */
};

enum mp4_metadata_key { MP4_TITLE = 1, MP4_YEAR = 2, MP4_POSTER = 3, MP4_SUMMARY = 4 };

enum mp4_parameter_set_kind { MP4_SEQUENCE_SET = 1, MP4_PICTURE_SET = 2 };

/* What each call answers. What a refusal doesn't name is 0. */
typedef struct mp4_answer {
    uint64_t count;                    /* how many there are, whatever the room: brands, tracks, samples or bytes */
    uint64_t filled;                   /* how many were filled in */
    uint64_t index;                    /* which track or sample mp4_write was refused at, counted from 0; or the byte at
                                        * which a box begins (MP4_SAYS_PLACES, MP4_SAYS_OF_SAMPLES) */
    uint32_t code;                     /* enum mp4_code */
    uint32_t part;                     /* enum mp4_part */
    uint32_t limit;                    /* enum mp4_limit */
    uint32_t track_id;                 /* the track that a refusal names */
    uint32_t number;                   /* the entry, the version or the sample that a refusal names */
    uint8_t  box_type[4];              /* the box that a refusal names */
    uint8_t  second_box_type[4];       /* the other box that a refusal names */
    uint32_t reserved;
} mp4_answer;

/* What a file says of its movie. */
typedef struct mp4_movie {
    uint64_t size;                     /* bytes, to the end of the last box */
    uint64_t duration;                 /* of the movie header, in ticks of the movie */
    uint64_t creation_time;            /* of the movie header, in seconds since the beginning of 1904, UTC */
    uint64_t modification_time;        /* of the movie header, likewise */
    uint64_t track_count;
    uint64_t brand_count;              /* how many compatible brands there are */
    uint32_t timescale;                /* ticks in a second; it may be 0 */
    uint32_t minor_version;            /* of the major brand */
    uint8_t  major_brand[4];           /* the specification that the file follows first of all */
    uint8_t  is_fragmented;            /* 1 where the file has movie fragments, else 0 */
    uint8_t  header_version;           /* of the movie header: 1 where its times have 64 bits, else 0 */
    uint8_t  reserved[2];
} mp4_movie;

/* A specification that a file follows, as isom. */
typedef struct mp4_brand {
    uint8_t  code[4];
} mp4_brand;

/* What a file says of a track. A field with a mark has_.. is 0 where its mark is 0: the file doesn't say it. */
typedef struct mp4_track {
    uint64_t duration;                 /* of the media header, in ticks of the track: without fragments */
    uint64_t frames_per_second;        /* samples in a second, rounded down */
    uint32_t id;
    uint32_t timescale;                /* ticks in a second; it may be 0 */
    uint32_t sample_count;             /* those of fragments too */
    uint32_t bits_per_second;          /* the average that the sample entry says, or that of the samples */
    uint8_t  handler[4];               /* vide, soun, sbtl or another */
    uint8_t  sample_entry[4];          /* the first that is there of avc1, hev1, vp09, mp4a and tx3g */
    uint8_t  language[4];              /* three letters of ISO 639-2/T, and a zero */
    uint16_t width;                    /* pixels */
    uint16_t height;                   /* pixels */
    uint8_t  audio_profile;            /* mp4a: the audio object type; 2 is AAC LC */
    uint8_t  frequency_index;          /* mp4a: 0 is 96000 Hz, 3 is 48000, 4 is 44100, .. 12 is 7350 */
    uint8_t  channels;                 /* mp4a: the channel configuration; 1 is mono, 2 stereo, .. 7 is 7.1 */
    uint8_t  video_profile;            /* avc1: profile_idc; 66 is Baseline, 77 Main, 88 Extended, 100 High */
    uint8_t  video_compatibility;      /* avc1: the constraint flags beside the profile; its mark is the profile's */
    uint8_t  video_level;              /* avc1: level_idc, ten times the level; its mark is the profile's */
    uint8_t  has_frames_per_second;
    uint8_t  has_sample_count;         /* 0 where the count passes 32 bits */
    uint8_t  has_bits_per_second;
    uint8_t  has_sample_entry;
    uint8_t  has_audio_profile;
    uint8_t  has_frequency_index;
    uint8_t  has_channels;
    uint8_t  has_video_profile;
    uint8_t  reserved[2];
} mp4_track;

/* A sample: of a file that is read, or of a movie that is written. So the samples of a file can be given to mp4_write,
 * with the file as its data. Times are in ticks of the track. */
typedef struct mp4_sample {
    uint64_t offset;                   /* of its first byte, in the file that is read or in the data of mp4_write */
    uint64_t start_time;               /* when it is decoded; mp4_write doesn't look at it: the durations say it */
    uint32_t track_id;
    uint32_t size;                     /* bytes */
    uint32_t duration;
    int32_t  rendering_offset;         /* how much later it is shown than decoded */
    uint8_t  is_sync;                  /* 1 where decoding can begin, else 0; mp4_write takes each number but 0 as 1 */
    uint8_t  reserved[7];
} mp4_sample;

/* What a movie is begun with. */
typedef struct mp4_new_movie {
    uint32_t timescale;                /* ticks in a second, of the movie's durations */
    uint32_t minor_version;            /* of the major brand */
    uint8_t  major_brand[4];           /* the specification that the file follows first of all */
} mp4_new_movie;

/* What a track is added with. The first has id 1, and each next one the id after the one before. */
typedef struct mp4_new_track {
    uint64_t sequence_set;             /* avc1: where the sequence parameter set begins in the data */
    uint64_t picture_set;              /* avc1: where the picture parameter set begins in the data */
    uint32_t sequence_set_size;        /* avc1: bytes, 4 to 65535 */
    uint32_t picture_set_size;         /* avc1: bytes, at most 65535 */
    uint32_t timescale;                /* ticks in a second, of the track's times; not 0 */
    uint32_t bits_per_second;          /* mp4a */
    uint8_t  sample_entry[4];          /* avc1, hev1, vp09, mp4a or tx3g; hev1 is written without parameter sets, which
                                          have to be in the samples, so a track that has them in its hvcC is not to be
                                          copied; a sample of tx3g begins with the length of its text in two bytes */
    uint8_t  language[4];              /* three characters of U+0060 to U+007F; a zero first is und */
    uint16_t width;                    /* avc1, hev1 and vp09: pixels */
    uint16_t height;                   /* avc1, hev1 and vp09: pixels */
    uint8_t  audio_profile;            /* mp4a: the audio object type, 1 to 30; 2 is AAC LC */
    uint8_t  frequency_index;          /* mp4a: 0 to 12, as in mp4_track */
    uint8_t  channels;                 /* mp4a: 1 to 7, as in mp4_track */
    uint8_t  reserved;
} mp4_new_track;

/* The layout that the library was proved with. */
#ifdef __cplusplus
#define MP4_ASSERT_(condition) static_assert(condition, #condition)
#else
#define MP4_ASSERT_(condition) _Static_assert(condition, #condition)
#endif
#define MP4_SIZE_(type, size) MP4_ASSERT_(sizeof(type) == (size))
#define MP4_AT_(type, field, offset) MP4_ASSERT_(offsetof(type, field) == (offset))
#if defined(__GNUC__) && !defined(__cplusplus)
#pragma GCC diagnostic push
#pragma GCC diagnostic ignored "-Wpedantic"
#endif
MP4_SIZE_(mp4_answer, 56);
MP4_AT_(mp4_answer, count, 0);
MP4_AT_(mp4_answer, filled, 8);
MP4_AT_(mp4_answer, index, 16);
MP4_AT_(mp4_answer, code, 24);
MP4_AT_(mp4_answer, part, 28);
MP4_AT_(mp4_answer, limit, 32);
MP4_AT_(mp4_answer, track_id, 36);
MP4_AT_(mp4_answer, number, 40);
MP4_AT_(mp4_answer, box_type, 44);
MP4_AT_(mp4_answer, second_box_type, 48);
MP4_AT_(mp4_answer, reserved, 52);
MP4_SIZE_(mp4_movie, 64);
MP4_AT_(mp4_movie, size, 0);
MP4_AT_(mp4_movie, duration, 8);
MP4_AT_(mp4_movie, creation_time, 16);
MP4_AT_(mp4_movie, modification_time, 24);
MP4_AT_(mp4_movie, track_count, 32);
MP4_AT_(mp4_movie, brand_count, 40);
MP4_AT_(mp4_movie, timescale, 48);
MP4_AT_(mp4_movie, minor_version, 52);
MP4_AT_(mp4_movie, major_brand, 56);
MP4_AT_(mp4_movie, is_fragmented, 60);
MP4_AT_(mp4_movie, header_version, 61);
MP4_AT_(mp4_movie, reserved, 62);
MP4_SIZE_(mp4_brand, 4);
MP4_SIZE_(mp4_track, 64);
MP4_AT_(mp4_track, duration, 0);
MP4_AT_(mp4_track, frames_per_second, 8);
MP4_AT_(mp4_track, id, 16);
MP4_AT_(mp4_track, timescale, 20);
MP4_AT_(mp4_track, sample_count, 24);
MP4_AT_(mp4_track, bits_per_second, 28);
MP4_AT_(mp4_track, handler, 32);
MP4_AT_(mp4_track, sample_entry, 36);
MP4_AT_(mp4_track, language, 40);
MP4_AT_(mp4_track, width, 44);
MP4_AT_(mp4_track, height, 46);
MP4_AT_(mp4_track, audio_profile, 48);
MP4_AT_(mp4_track, frequency_index, 49);
MP4_AT_(mp4_track, channels, 50);
MP4_AT_(mp4_track, video_profile, 51);
MP4_AT_(mp4_track, video_compatibility, 52);
MP4_AT_(mp4_track, video_level, 53);
MP4_AT_(mp4_track, has_frames_per_second, 54);
MP4_AT_(mp4_track, has_sample_count, 55);
MP4_AT_(mp4_track, has_bits_per_second, 56);
MP4_AT_(mp4_track, has_sample_entry, 57);
MP4_AT_(mp4_track, has_audio_profile, 58);
MP4_AT_(mp4_track, has_frequency_index, 59);
MP4_AT_(mp4_track, has_channels, 60);
MP4_AT_(mp4_track, has_video_profile, 61);
MP4_AT_(mp4_track, reserved, 62);
MP4_SIZE_(mp4_sample, 40);
MP4_AT_(mp4_sample, offset, 0);
MP4_AT_(mp4_sample, start_time, 8);
MP4_AT_(mp4_sample, track_id, 16);
MP4_AT_(mp4_sample, size, 20);
MP4_AT_(mp4_sample, duration, 24);
MP4_AT_(mp4_sample, rendering_offset, 28);
MP4_AT_(mp4_sample, is_sync, 32);
MP4_AT_(mp4_sample, reserved, 33);
MP4_SIZE_(mp4_new_movie, 12);
MP4_AT_(mp4_new_movie, timescale, 0);
MP4_AT_(mp4_new_movie, minor_version, 4);
MP4_AT_(mp4_new_movie, major_brand, 8);
MP4_SIZE_(mp4_new_track, 48);
MP4_AT_(mp4_new_track, sequence_set, 0);
MP4_AT_(mp4_new_track, picture_set, 8);
MP4_AT_(mp4_new_track, sequence_set_size, 16);
MP4_AT_(mp4_new_track, picture_set_size, 20);
MP4_AT_(mp4_new_track, timescale, 24);
MP4_AT_(mp4_new_track, bits_per_second, 28);
MP4_AT_(mp4_new_track, sample_entry, 32);
MP4_AT_(mp4_new_track, language, 36);
MP4_AT_(mp4_new_track, width, 40);
MP4_AT_(mp4_new_track, height, 42);
MP4_AT_(mp4_new_track, audio_profile, 44);
MP4_AT_(mp4_new_track, frequency_index, 45);
MP4_AT_(mp4_new_track, channels, 46);
MP4_AT_(mp4_new_track, reserved, 47);
#if defined(__GNUC__) && !defined(__cplusplus)
#pragma GCC diagnostic pop
#endif
#undef MP4_SIZE_
#undef MP4_AT_
#undef MP4_ASSERT_

/* What the library exports. Here no pointer may be NULL, also not that of an array of no elements, and each is aligned
 * for its type. In C call the functions below in place of these; another language calls these. */
uint32_t mp4_c_version(void);
mp4_answer mp4_c_open(const uint8_t *file, size_t size, mp4_movie *movie);
mp4_answer mp4_c_brands(const uint8_t *file, size_t size, mp4_brand *brands, size_t room);
mp4_answer mp4_c_tracks(const uint8_t *file, size_t size, mp4_track *tracks, size_t room);
mp4_answer mp4_c_samples(const uint8_t *file, size_t size, uint32_t track_id, uint32_t first, mp4_sample *samples,
                         size_t room);
mp4_answer mp4_c_sample_at(const uint8_t *file, size_t size, uint32_t track_id, uint64_t time, uint32_t *number);
mp4_answer mp4_c_sync_sample_at_or_before(const uint8_t *file, size_t size, uint32_t track_id, uint32_t number,
                                          uint32_t *sync_number);
mp4_answer mp4_c_row_at(const mp4_sample *samples, size_t count, uint64_t time, uint64_t *number);
mp4_answer mp4_c_sync_row_at_or_before(const mp4_sample *samples, size_t count, uint64_t number,
                                       uint64_t *sync_number);
mp4_answer mp4_c_metadata(const uint8_t *file, size_t size, uint32_t key, uint8_t *bytes, size_t room);
mp4_answer mp4_c_parameter_set(const uint8_t *file, size_t size, uint32_t track_id, uint32_t kind, uint8_t *bytes,
                               size_t room);
mp4_answer mp4_c_write(const mp4_new_movie *movie, const mp4_brand *brands, size_t brand_count,
                       const mp4_new_track *tracks, size_t track_count, const mp4_sample *samples, size_t sample_count,
                       const uint8_t *data, size_t data_size, uint8_t *out, size_t room);
mp4_answer mp4_c_move_to_front(const uint8_t *file, size_t size, uint8_t *out, size_t room);
mp4_answer mp4_c_gather(const uint8_t *file, size_t size, uint8_t *out, size_t room);
mp4_answer mp4_c_choose(const uint8_t *file, size_t size, const uint32_t *track_ids, size_t track_count, uint8_t *out,
                        size_t room);
mp4_answer mp4_c_error_text(const mp4_answer *answer, uint8_t *bytes, size_t room);
mp4_answer mp4_c_open_error_text(const uint8_t *file, size_t size, uint8_t *bytes, size_t room);

/* A pointer for an array of no elements that is given as NULL, and whether NULL is given for one that has some. */
#define MP4_POINTER_(type, pointer, spare) ((pointer) ? (type *)(pointer) : (type *)(void *)(spare))
#define MP4_IS_NULL_(pointer, elements) (!(pointer) && (elements) != 0)

static inline mp4_answer mp4_null_pointer_(void) {
    mp4_answer answer = {0, 0, 0, MP4_NULL_POINTER, 0, 0, 0, 0, {0, 0, 0, 0}, {0, 0, 0, 0}, 0};
    return answer;
}

/* The version of the library. Where it isn't MP4_VERSION, the archive isn't the one of this header, and what its
 * structs are is not known. */
static inline uint32_t mp4_version(void) {
    return mp4_c_version();
}

/* What the file says of its movie. count is the number of its tracks. After a refusal the movie is as it was. */
static inline mp4_answer mp4_open(const void *file, size_t size, mp4_movie *movie) {
    uint64_t spare[1] = {0};
    if (MP4_IS_NULL_(file, size) || !movie) return mp4_null_pointer_();
    return mp4_c_open(MP4_POINTER_(const uint8_t, file, spare), size, movie);
}

/* The compatible brands, in the order of the file, as far as there is room. count is how many there are. */
static inline mp4_answer mp4_brands(const void *file, size_t size, mp4_brand *brands, size_t room) {
    uint64_t spare[1] = {0};
    if (MP4_IS_NULL_(file, size) || MP4_IS_NULL_(brands, room)) return mp4_null_pointer_();
    return mp4_c_brands(MP4_POINTER_(const uint8_t, file, spare), size, MP4_POINTER_(mp4_brand, brands, spare), room);
}

/* The tracks by rising ids, as far as there is room. count is how many there are. */
static inline mp4_answer mp4_tracks(const void *file, size_t size, mp4_track *tracks, size_t room) {
    uint64_t spare[1] = {0};
    if (MP4_IS_NULL_(file, size) || MP4_IS_NULL_(tracks, room)) return mp4_null_pointer_();
    return mp4_c_tracks(MP4_POINTER_(const uint8_t, file, spare), size, MP4_POINTER_(mp4_track, tracks, spare), room);
}

/* The samples of a track from number first on, as far as there are samples and room, in one pass over its tables. count
 * is how many samples the track has. After a refusal, filled says how many samples before it were filled in; the next
 * one is what was refused. Where stsz gives all samples one size, and counts fewer than its other tables hold, those
 * after count are filled in too if there is room: so make room for no more than there are from first to count.
 *
 * These rows are the index of the track, since none that owns memory crosses to C: 40 bytes for each sample, and the
 * time of opening the file once more and of one pass. Kept, they find a sample by its number as row number - 1, and
 * mp4_row_at and mp4_sync_row_at_or_before look among them.
 *
 * A few hundred bytes may say that a track has 2^32 - 1 samples, which are 172 GB of rows. So of a file that isn't yours
 * make room for at most size / 4 rows, as many as there are where each sample has a size of its own in the file, and
 * ask for those after them in blocks.
 *
 * MP4_TRAK_NOT_FOUND where there is no such track; MP4_TOO_LARGE where it has more than 2^32 - 1 samples. */
static inline mp4_answer mp4_samples(const void *file, size_t size, uint32_t track_id, uint32_t first,
                                     mp4_sample *samples, size_t room) {
    uint64_t spare[1] = {0};
    if (MP4_IS_NULL_(file, size) || MP4_IS_NULL_(samples, room)) return mp4_null_pointer_();
    return mp4_c_samples(MP4_POINTER_(const uint8_t, file, spare), size, track_id, first,
                         MP4_POINTER_(mp4_sample, samples, spare), room);
}

/* The bytes of a sample, sample->size of them, or NULL where it isn't whole in the file. */
static inline const uint8_t *mp4_sample_bytes(const void *file, size_t size, const mp4_sample *sample) {
    if (!file || !sample || sample->offset > size || sample->size > size - sample->offset) return NULL;
    return (const uint8_t *)file + sample->offset;
}

/* The number of the last sample that is decoded at or before a time in ticks of the track; 0 where there is none.
 *
 * MP4_TRAK_NOT_FOUND where there is no such track; after a refusal the number is as it was. */
static inline mp4_answer mp4_sample_at(const void *file, size_t size, uint32_t track_id, uint64_t time,
                                       uint32_t *number) {
    uint64_t spare[1] = {0};
    if (MP4_IS_NULL_(file, size) || !number) return mp4_null_pointer_();
    return mp4_c_sample_at(MP4_POINTER_(const uint8_t, file, spare), size, track_id, time, number);
}

/* The number of the last sample up to this one from which decoding can begin: the sample itself, if it is a sync
 * sample. 0 where there is none.
 *
 * MP4_TRAK_NOT_FOUND where there is no such track; after a refusal the number is as it was. */
static inline mp4_answer mp4_sync_sample_at_or_before(const void *file, size_t size, uint32_t track_id,
                                                      uint32_t number, uint32_t *sync_number) {
    uint64_t spare[1] = {0};
    if (MP4_IS_NULL_(file, size) || !sync_number) return mp4_null_pointer_();
    return mp4_c_sync_sample_at_or_before(MP4_POINTER_(const uint8_t, file, spare), size, track_id, number,
                                          sync_number);
}

/* The number of the last of a track's samples that is decoded at or before a time in ticks of the track; 0 where there
 * is none. The samples are rows that mp4_samples filled in, the first of number 1, and no file is opened: a binary
 * search. Where all samples of the track are there and their start times rise, as they do without fragments and nearly
 * always with them, it is the number that mp4_sample_at gives; where they don't rise it is some number up to count. */
static inline mp4_answer mp4_row_at(const mp4_sample *samples, size_t count, uint64_t time, uint64_t *number) {
    uint64_t spare[1] = {0};
    if (MP4_IS_NULL_(samples, count) || !number) return mp4_null_pointer_();
    return mp4_c_row_at(MP4_POINTER_(const mp4_sample, samples, spare), count, time, number);
}

/* The number of the last of a track's samples up to this one from which decoding can begin, as
 * mp4_sync_sample_at_or_before gives it; 0 where there is none. The samples are rows that mp4_samples filled in, the
 * first of number 1, and no file is opened: they are looked at one by one, from this one on backwards. */
static inline mp4_answer mp4_sync_row_at_or_before(const mp4_sample *samples, size_t count, uint64_t number,
                                                   uint64_t *sync_number) {
    uint64_t spare[1] = {0};
    if (MP4_IS_NULL_(samples, count) || !sync_number) return mp4_null_pointer_();
    return mp4_c_sync_row_at_or_before(MP4_POINTER_(const mp4_sample, samples, spare), count, number, sync_number);
}

/* The metadata at a key of enum mp4_metadata_key, if all of it fits: the title and the summary in UTF-8, the year as
 * its decimal digits, and the poster as the bytes of a picture. count is how many bytes it has, and filled is count, or
 * 0 where they don't fit.
 *
 * MP4_NOT_PRESENT where the file doesn't say it; MP4_UNKNOWN_CHOICE for another key. */
static inline mp4_answer mp4_metadata(const void *file, size_t size, uint32_t key, uint8_t *bytes, size_t room) {
    uint64_t spare[1] = {0};
    if (MP4_IS_NULL_(file, size) || MP4_IS_NULL_(bytes, room)) return mp4_null_pointer_();
    return mp4_c_metadata(MP4_POINTER_(const uint8_t, file, spare), size, key, MP4_POINTER_(uint8_t, bytes, spare),
                          room);
}

/* The first parameter set of a kind of enum mp4_parameter_set_kind of a track of AVC video, if all of it fits. count is
 * how many bytes it has, and filled is count, or 0 where they don't fit.
 *
 * MP4_TRAK_NOT_FOUND where there is no such track; MP4_BOX_IN_STBL_NOT_FOUND where it has no avc1;
 * MP4_ENTRY_IN_STBL_NOT_FOUND where it has no such set; MP4_UNKNOWN_CHOICE for another kind. */
static inline mp4_answer mp4_parameter_set(const void *file, size_t size, uint32_t track_id, uint32_t kind,
                                           uint8_t *bytes, size_t room) {
    uint64_t spare[1] = {0};
    if (MP4_IS_NULL_(file, size) || MP4_IS_NULL_(bytes, room)) return mp4_null_pointer_();
    return mp4_c_parameter_set(MP4_POINTER_(const uint8_t, file, spare), size, track_id, kind,
                               MP4_POINTER_(uint8_t, bytes, spare), room);
}

/* Writes a movie of these tracks and of these samples, in this order, if all of it fits. count is how many bytes it
 * has, and filled is count, or 0 where they don't fit; then ask again with room for count bytes.
 *
 * After a refusal, part and index say which track or sample is the first at fault. MP4_INVALID_DATA for a sample entry,
 * a type of sound, a frequency or channels that aren't listed above; MP4_END_OF_DATA where a sample or a parameter set
 * isn't whole in the data; MP4_ZERO_TIMESCALE for a track's timescale of 0; MP4_UNREPRESENTABLE for a language or a
 * parameter set that has no encoding; MP4_TRAK_NOT_FOUND for a sample of no track; MP4_TOO_LARGE past a limit. */
static inline mp4_answer mp4_write(const mp4_new_movie *movie, const mp4_brand *brands, size_t brand_count,
                                   const mp4_new_track *tracks, size_t track_count, const mp4_sample *samples,
                                   size_t sample_count, const void *data, size_t data_size, uint8_t *out,
                                   size_t room) {
    uint64_t spare[1] = {0};
    if (!movie || MP4_IS_NULL_(brands, brand_count) || MP4_IS_NULL_(tracks, track_count)) return mp4_null_pointer_();
    if (MP4_IS_NULL_(samples, sample_count) || MP4_IS_NULL_(data, data_size)) return mp4_null_pointer_();
    if (MP4_IS_NULL_(out, room)) return mp4_null_pointer_();
    return mp4_c_write(movie, MP4_POINTER_(const mp4_brand, brands, spare), brand_count,
                       MP4_POINTER_(const mp4_new_track, tracks, spare), track_count,
                       MP4_POINTER_(const mp4_sample, samples, spare), sample_count,
                       MP4_POINTER_(const uint8_t, data, spare), data_size, MP4_POINTER_(uint8_t, out, spare), room);
}

/* The file with its movie box before its data, as players want it that begin before they have the whole file, if all of
 * it fits: the file type, the movie box, then all other boxes in their order. Of the movie box the chunk offsets are
 * others, 64 bits wide where one passes 32; every other byte is there as it was. A file whose movie box is before its
 * data already stays as it is. count is how many bytes there are, and filled is count, or 0 where they don't fit: room
 * for size bytes is enough where no offset comes to pass 32 bits. The movie is made in memory, also where it is only
 * counted.
 *
 * Refused as mp4_open is. Where the movie box has to move, each sample of each track is looked up in the file and in
 * what would be written; then also refused as mp4_samples is where a sample isn't found, and: MP4_TWICE for two file
 * types or two movie boxes; MP4_SAYS_PLACES for a box that says places which aren't rewritten: a moof or mfra, an iloc
 * or saio in the movie box or in the file's metadata, a dref that says that samples are in another file, or a sidx that
 * can't be read, or where the movie box or the file type is between it and the end of what it refers to;
 * MP4_TOO_MANY_SAMPLES where the tracks have more samples than the file has bytes; MP4_TOO_LARGE where the movie box
 * passes its limit; MP4_OTHER_TRACKS and MP4_DIFFERS where a track or a sample wouldn't be read as before. After a
 * refusal the room is as it was. */
static inline mp4_answer mp4_move_to_front(const void *file, size_t size, uint8_t *out, size_t room) {
    uint64_t spare[1] = {0};
    if (MP4_IS_NULL_(file, size) || MP4_IS_NULL_(out, room)) return mp4_null_pointer_();
    return mp4_c_move_to_front(MP4_POINTER_(const uint8_t, file, spare), size, MP4_POINTER_(uint8_t, out, spare),
                               room);
}

/* The file with all samples in its tables and none in fragments, if all of it fits: the file type, the movie box, the
 * other boxes in their order, and the data of all samples in the order of the file, in one mdat. A file without
 * fragments, in which none may follow, stays as it is. count is how many bytes there are, and filled is count, or 0
 * where they don't fit; then ask again with room for count bytes. The movie is made in memory, also where it is only
 * counted.
 *
 * The boxes moof, mfra, sidx, ssix, styp, prft and mvex are left out, and bytes of mdat that are no sample's. Beside
 * times, sizes, places, descriptions and sync marks nothing of what fragments say of a sample has a table here: flags
 * of dependency and of priority are lost.
 *
 * Refused as mp4_open is, and as mp4_samples where a sample isn't found; and by MP4_STARTS_ELSEWHERE where a sample
 * doesn't begin when the one before it ends, or the first of a track at 0; MP4_SAYS_OF_SAMPLES for a box in a fragment
 * or in the movie box that says more of samples than tables do (senc, saiz, sbgp, sdtp and the like); MP4_SAME_IDS for
 * two tracks of one id; and by MP4_TWICE, MP4_SAYS_PLACES, MP4_TOO_MANY_SAMPLES, MP4_TOO_LARGE, MP4_OTHER_TRACKS and
 * MP4_DIFFERS as mp4_move_to_front is. After a refusal the room is as it was. */
static inline mp4_answer mp4_gather(const void *file, size_t size, uint8_t *out, size_t room) {
    uint64_t spare[1] = {0};
    if (MP4_IS_NULL_(file, size) || MP4_IS_NULL_(out, room)) return mp4_null_pointer_();
    return mp4_c_gather(MP4_POINTER_(const uint8_t, file, spare), size, MP4_POINTER_(uint8_t, out, spare), room);
}

/* The file with the tracks of these ids alone and with the data of their samples, if all of it fits: the file type, the
 * movie box, the other boxes in their order, and the data in the order of the file, in one mdat. In the movie box the
 * other tracks are left out, and the references to them; the movie is as long as the longest of its tracks. The order
 * of the ids makes no difference: tracks are in that of the file. Fragments are gathered, as by mp4_gather. count is how
 * many bytes there are, and filled is count, or 0 where they don't fit.
 *
 * Refused as mp4_gather is, and by MP4_TRAK_NOT_FOUND for an id that no track has; where the file has no fragments, by
 * MP4_SAYS_PLACES also for mfra and sidx. */
static inline mp4_answer mp4_choose(const void *file, size_t size, const uint32_t *track_ids, size_t track_count,
                                    uint8_t *out, size_t room) {
    uint64_t spare[1] = {0};
    if (MP4_IS_NULL_(file, size) || MP4_IS_NULL_(track_ids, track_count) || MP4_IS_NULL_(out, room)) {
        return mp4_null_pointer_();
    }
    return mp4_c_choose(MP4_POINTER_(const uint8_t, file, spare), size, MP4_POINTER_(const uint32_t, track_ids, spare),
                        track_count, MP4_POINTER_(uint8_t, out, spare), room);
}

/* What an answer says in words, in ASCII and without a zero at its end, if all of it fits. count is how many bytes it
 * has, and filled is count, or 0 where they don't fit. 90 bytes are enough for every answer of this library. */
static inline mp4_answer mp4_error_text(const mp4_answer *answer, uint8_t *bytes, size_t room) {
    uint64_t spare[1] = {0};
    if (!answer || MP4_IS_NULL_(bytes, room)) return mp4_null_pointer_();
    return mp4_c_error_text(answer, MP4_POINTER_(uint8_t, bytes, spare), room);
}

/* Why mp4_open refuses a file, in words as those of mp4_error_text; where the code is MP4_INVALID_DATA, they are
 * followed by a colon and what it is that is invalid: "invalid data: a box is larger than the file". The file is opened
 * once more for it, and where that is out of memory, the answer is. 120 bytes are enough. Of a file that opens they are
 * "no error". */
static inline mp4_answer mp4_open_error_text(const void *file, size_t size, uint8_t *bytes, size_t room) {
    uint64_t spare[1] = {0};
    if (MP4_IS_NULL_(file, size) || MP4_IS_NULL_(bytes, room)) return mp4_null_pointer_();
    return mp4_c_open_error_text(MP4_POINTER_(const uint8_t, file, spare), size, MP4_POINTER_(uint8_t, bytes, spare),
                                 room);
}

/* What a code says in words, without what an answer names beside it: text that ends with a zero and lives as long as
 * the program. */
static inline const char *mp4_strerror(uint32_t code) {
    static const char *const words[] = {
        "no error", "end of data", "out of memory", "invalid data", "a box is not found",
        "neither of two boxes is found", "a track is not found", "a box of a track is not found",
        "a box of a track fragment is not found", "a box of a sample table is not found",
        "an entry of a sample table is not found", "an entry of a track run is not found",
        "a version of a box is not supported", "writer ended", "timescale is zero", "too large", "unrepresentable",
        "no such metadata", "unknown choice", "null pointer", "two boxes of a type", "a box says places of the file",
        "a track has more samples than the file has bytes", "the tracks would be others",
        "a sample would not be read as before", "a box says of samples what tables do not",
        "a sample does not begin when the one before it ends", "two tracks have the same id"};
    return code < sizeof words / sizeof *words ? words[code] : "an answer of another version";
}

#undef MP4_POINTER_
#undef MP4_IS_NULL_

#ifdef __cplusplus
}
#endif
#endif
