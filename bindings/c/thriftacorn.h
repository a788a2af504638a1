/*
 * FLAC frames, read and written with a proof: the functions of libthriftacorn.a for C99 and C++11.
 *
 * Every input and every buffer gets one answer, a number: 0, or that of the refusal. What a buffer holds after each
 * answer is fixed too (docs/PROMISES.md in the repository). Nothing is allocated or kept between calls, so any number
 * of threads may call.
 *
 * HALF A FRAME IS NOT A BAD FRAME. Ask thriftacorn_needs() what a refusal needs. On THRIFTACORN_NEED_WAIT, wait for
 * more bytes and read again from the same place. Only on THRIFTACORN_NEED_FINAL may a program skip ahead and search
 * for the next sync code: the sound in a frame can be any bytes, even those of a whole frame with both its check sums
 * right.
 *
 * What will not change. A function whose name ends in _v1, _v2 or _v3 keeps its arguments and its meaning. So do this
 * header's functions without it: settings for reading came as a struct, with functions of their own. A new field of a
 * struct will take its space from `reserved`, so that the struct keeps its size, and zero in it will mean what is meant
 * today: designated initialisers and the macros that end in _INIT will compile as before and mean the same. An answer
 * keeps its number; more answers may be added.
 *
 * What a caller must ensure. Memory that is lent is valid for its whole length, and no two parts of it overlap. An
 * empty slice may be NULL; a slice that is NULL but not empty is answered 11. A pointer to a single value is not NULL.
 */
#ifndef THRIFTACORN_H
#define THRIFTACORN_H

#include <stddef.h>
#include <stdint.h>

#define THRIFTACORN_VERSION "0.4.0"

/* Room for every frame: eight channels of 65535 samples. */
#define THRIFTACORN_ROOM 524280

#ifdef __cplusplus
extern "C" {
#endif

enum thriftacorn_answer {
    THRIFTACORN_OK = 0,
    THRIFTACORN_NOTHING_LEFT = 1,   /* the input is empty */
    THRIFTACORN_CUT_SHORT = 2,      /* the input ends before the frame or the stream header does */
    THRIFTACORN_NOT_SYNC = 3,       /* the sync bits are wrong, or a stream does not start with fLaC */
    THRIFTACORN_RESERVED = 4,       /* a reserved or forbidden value, or a one in a bit that must be zero */
    THRIFTACORN_BAD_NUMBER = 5,     /* the coded number is malformed or too large */
    THRIFTACORN_HEADER_SUM = 6,     /* the header's CRC-8 differs */
    THRIFTACORN_NO_ROOM = 7,        /* the frame has more samples than there is room for */
    THRIFTACORN_NOT_DONE = 8,       /* a part of the format that is not supported */
    THRIFTACORN_BAD_SHAPE = 9,      /* sizes that contradict each other */
    THRIFTACORN_FRAME_SUM = 10,     /* the frame's CRC-16 differs */
    THRIFTACORN_BAD_ARGUMENT = 11,  /* a setting or an index out of range, or a wrong number of samples */
    THRIFTACORN_SAMPLE_RANGE = 12,  /* a sample that does not fit its bits */
    THRIFTACORN_OUTPUT_ROOM = 13    /* the frame is longer than the output */
};

/* What an answer asks of the caller. */
enum thriftacorn_need {
    THRIFTACORN_NEED_NOTHING = 0, /* it is not a refusal */
    THRIFTACORN_NEED_WAIT = 1,    /* more bytes may make it a frame: wait, and read again from the same place */
    THRIFTACORN_NEED_ROOM = 2,    /* more room for samples changes the answer; more bytes do not */
    THRIFTACORN_NEED_FINAL = 3    /* neither more bytes nor more room changes it */
};

/* What is reported about a frame that was read; all zero for a refusal. */
typedef struct thriftacorn_frame {
    size_t consumed;             /* the bytes of the frame; the next one starts after them */
    size_t channels;             /* 1 to 8 */
    size_t block_size;           /* samples per channel, 1 to 65535 */
    uint64_t first_sample;       /* the number of the block's first sample in its channel; 0 if it is not known */
    uint32_t first_sample_known; /* 1, or 0 if that takes the size of the stream's blocks, which is unknown */
    uint32_t bits;               /* bits per sample, 4 to 24: the frame's own, or else the stream's */
    uint32_t rate;               /* samples of a channel in one second, likewise; 0 if it is not known */
    uint32_t rate_known;         /* 1, or 0: always 0 without settings; with them, if neither has a rate */
    uint64_t reserved[7];
} thriftacorn_frame;

#define THRIFTACORN_FRAME_INIT {0, 0, 0, 0, 0, 0, 0, 0, {0, 0, 0, 0, 0, 0, 0}}

/*
 * The settings for reading a frame: what is known of its stream. With fixed blocking a frame has only its own number,
 * which counts blocks of the stream's size; a stream's last block may be smaller. A frame may also leave its bits and
 * its rate to the stream header. Other values than those named here are refused with 11. Reserved fields are zero;
 * anything else in them is refused with 11 too.
 */
typedef struct thriftacorn_read_settings {
    uint32_t block_given;  /* 1 if `block` is the size of the stream's blocks, 0 if that is unknown */
    uint32_t stream_given; /* 1 if `stream_bits` and `stream_rate` are those of the stream header, 0 if there is none */
    size_t block;          /* samples per channel, 1 to 65535; passed over if it is not given */
    uint32_t stream_bits;  /* bits per sample, 4 to 32; passed over if they are not given */
    uint32_t stream_rate;  /* samples of a channel in one second; passed over if it is not given */
    uint64_t reserved[7];
} thriftacorn_read_settings;

#define THRIFTACORN_READ_SETTINGS_INIT {0, 0, 0, 0, 0, {0, 0, 0, 0, 0, 0, 0}}

/* What a stream header says: its STREAMINFO block (RFC 9639 section 8.2). All zero for a refusal. */
typedef struct thriftacorn_stream_info {
    size_t consumed;         /* the bytes of the header; the frames start after them */
    uint64_t samples;        /* the samples of a channel in the whole stream, 0 if that is unknown */
    uint32_t smallest_block; /* samples per channel, the stream's last block aside */
    uint32_t largest_block;
    uint32_t smallest_frame; /* bytes, 0 if that is unknown */
    uint32_t largest_frame;
    uint32_t rate;     /* samples of a channel in one second */
    uint32_t channels; /* 1 to 8 */
    uint32_t bits;     /* bits per sample, 4 to 32 */
    uint32_t reserved_word;
    uint8_t md5[16]; /* the MD5 of all samples, as it is stored; it is not checked */
    uint64_t reserved[8];
} thriftacorn_stream_info;

#define THRIFTACORN_STREAM_INFO_INIT \
    {0, 0, 0, 0, 0, 0, 0, 0, 0, 0, {0, 0, 0, 0, 0, 0, 0, 0, 0, 0, 0, 0, 0, 0, 0, 0}, {0, 0, 0, 0, 0, 0, 0, 0}}

/* Channel codes: 0 to 7 mean 1 to 8 independent channels; these mean two, with their difference stored for one. */
#define THRIFTACORN_LEFT_SIDE 8
#define THRIFTACORN_SIDE_RIGHT 9
#define THRIFTACORN_MID_SIDE 10

/* What the number in a frame's header counts. */
#define THRIFTACORN_FIXED 0    /* frames, in a stream with blocks of one size */
#define THRIFTACORN_VARIABLE 1 /* samples before the block */

/* The settings for writing a frame. Reserved fields are zero; anything else in them is refused with 11. */
typedef struct thriftacorn_write_settings {
    uint32_t channel_code; /* 0 to 10 */
    uint32_t bits;         /* bits per sample: 8, 12, 16, 20 or 24 */
    uint32_t blocking;     /* THRIFTACORN_FIXED or THRIFTACORN_VARIABLE */
    uint32_t reserved_word;
    uint64_t number;   /* of the frame, at most 2147483647, or of its first sample, below 2^36 */
    size_t block_size; /* samples per channel, 1 to 65535 */
    uint64_t reserved[8];
} thriftacorn_write_settings;

#define THRIFTACORN_WRITE_SETTINGS_INIT {0, 0, 0, 0, 0, 0, {0, 0, 0, 0, 0, 0, 0, 0}}

/*
 * The library's own functions. Each slice is a pointer, which is not NULL, and a length. After a refusal all values
 * returned through pointers are 0, except that `place` stays as it was.
 */
uint8_t thriftacorn_read_frame_v1(const uint8_t *bytes, size_t bytes_len, int32_t *samples, size_t samples_len,
                                  size_t *consumed, uint64_t *first, size_t *channels, uint32_t *bits, size_t *size);
uint8_t thriftacorn_read_next_v1(const uint8_t *bytes, size_t bytes_len, size_t *place, int32_t *samples,
                                 size_t samples_len, size_t *consumed, uint64_t *first, size_t *channels,
                                 uint32_t *bits, size_t *size);
uint8_t thriftacorn_read_frame_v2(const uint8_t *bytes, size_t bytes_len, uint32_t block_given, size_t block,
                                  int32_t *samples, size_t samples_len, size_t *consumed, uint32_t *first_known,
                                  uint64_t *first, size_t *channels, uint32_t *bits, size_t *size);
uint8_t thriftacorn_read_next_v2(const uint8_t *bytes, size_t bytes_len, size_t *place, uint32_t block_given,
                                 size_t block, int32_t *samples, size_t samples_len, size_t *consumed,
                                 uint32_t *first_known, uint64_t *first, size_t *channels, uint32_t *bits,
                                 size_t *size);
uint8_t thriftacorn_read_frame_v3(const uint8_t *bytes, size_t bytes_len, uint32_t block_given, size_t block,
                                  uint32_t stream_given, uint32_t stream_bits, uint32_t stream_rate, int32_t *samples,
                                  size_t samples_len, size_t *consumed, uint32_t *first_known, uint64_t *first,
                                  uint32_t *rate_known, uint32_t *rate, size_t *channels, uint32_t *bits,
                                  size_t *size);
uint8_t thriftacorn_read_next_v3(const uint8_t *bytes, size_t bytes_len, size_t *place, uint32_t block_given,
                                 size_t block, uint32_t stream_given, uint32_t stream_bits, uint32_t stream_rate,
                                 int32_t *samples, size_t samples_len, size_t *consumed, uint32_t *first_known,
                                 uint64_t *first, uint32_t *rate_known, uint32_t *rate, size_t *channels,
                                 uint32_t *bits, size_t *size);
uint8_t thriftacorn_read_stream_header_v1(const uint8_t *bytes, size_t bytes_len, size_t *consumed,
                                          uint32_t *smallest_block, uint32_t *largest_block, uint32_t *smallest_frame,
                                          uint32_t *largest_frame, uint32_t *rate, uint32_t *channels, uint32_t *bits,
                                          uint64_t *samples, uint64_t *md5_high, uint64_t *md5_low);
uint32_t thriftacorn_stream_block_v1(const uint8_t *bytes, size_t bytes_len, size_t *block);
uint8_t thriftacorn_write_frame_v1(const int32_t *samples, size_t samples_len, uint32_t channels, uint32_t bits,
                                   uint32_t blocking, uint64_t number, size_t size, uint8_t *out, size_t out_len,
                                   size_t *length);
size_t thriftacorn_longest_v1(uint32_t channels, uint32_t bits, uint32_t blocking, uint64_t number, size_t size);
uint8_t thriftacorn_channel_v1(const int32_t *samples, size_t samples_len, size_t channels, size_t size,
                               size_t channel, size_t *start, size_t *end);
uint8_t thriftacorn_sample_v1(const int32_t *samples, size_t samples_len, size_t channels, size_t size, size_t channel,
                              size_t index, int32_t *value);
uint8_t thriftacorn_pair_v1(const int32_t *samples, size_t samples_len, size_t channels, size_t size, size_t index,
                            int32_t *left, int32_t *right);

#ifdef __cplusplus
}
#endif

/*
 * What an answer asks of the caller. 11 to 13 are final: other settings, samples or output are needed. Reading gives 11
 * for settings that no stream has and for a slice that is NULL but not empty, and never 12 or 13.
 */
static inline enum thriftacorn_need thriftacorn_needs(uint8_t answer)
{
    switch (answer) {
    case THRIFTACORN_OK:
        return THRIFTACORN_NEED_NOTHING;
    case THRIFTACORN_NOTHING_LEFT:
    case THRIFTACORN_CUT_SHORT:
        return THRIFTACORN_NEED_WAIT;
    case THRIFTACORN_NO_ROOM:
        return THRIFTACORN_NEED_ROOM;
    default:
        return THRIFTACORN_NEED_FINAL;
    }
}

/* The answer in words. */
static inline const char *thriftacorn_words(uint8_t answer)
{
    switch (answer) {
    case THRIFTACORN_OK:
        return "done";
    case THRIFTACORN_NOTHING_LEFT:
        return "nothing left";
    case THRIFTACORN_CUT_SHORT:
        return "cut short";
    case THRIFTACORN_NOT_SYNC:
        return "no sync code";
    case THRIFTACORN_RESERVED:
        return "a reserved or forbidden value";
    case THRIFTACORN_BAD_NUMBER:
        return "a bad frame or sample number";
    case THRIFTACORN_HEADER_SUM:
        return "the header's CRC-8 differs";
    case THRIFTACORN_NO_ROOM:
        return "no room for the samples";
    case THRIFTACORN_NOT_DONE:
        return "a part of the format that is not read";
    case THRIFTACORN_BAD_SHAPE:
        return "sizes that contradict each other";
    case THRIFTACORN_FRAME_SUM:
        return "the frame's CRC-16 differs";
    case THRIFTACORN_BAD_ARGUMENT:
        return "an argument out of range";
    case THRIFTACORN_SAMPLE_RANGE:
        return "a sample out of range";
    case THRIFTACORN_OUTPUT_ROOM:
        return "no room for the frame";
    default:
        return "an answer of a later library";
    }
}

/* Whether a pointer and a length are a slice: an empty one may be NULL. */
static inline int thriftacorn_is_slice(const void *pointer, size_t length)
{
    return pointer != NULL || length == 0;
}

/*
 * Reads the frame at the start of `bytes` into `samples`, channel after channel. Bytes after the frame do not matter.
 * Let N be channels times block size. After 0 the first N are the samples. After 1, 3, 5, 6, 7 and 11 `samples` is
 * untouched. After 10 the first N are zero. After 2, 4, 8 and 9 it is untouched if the first subframe's first bit was
 * not read; otherwise the first N are zero. The others are always untouched.
 *
 * The number of the first sample is, with fixed blocking, the frame's number times the size of its own block. That
 * places a stream's shorter last block too early: thriftacorn_read_frame_with() does not.
 */
static inline uint8_t thriftacorn_read_frame(const uint8_t *bytes, size_t bytes_len, int32_t *samples,
                                             size_t samples_len, thriftacorn_frame *frame)
{
    const uint8_t no_byte = 0;
    int32_t no_sample = 0;
    const thriftacorn_frame nothing = THRIFTACORN_FRAME_INIT;
    uint8_t answer;
    *frame = nothing;
    if (!thriftacorn_is_slice(bytes, bytes_len) || !thriftacorn_is_slice(samples, samples_len)) {
        return THRIFTACORN_BAD_ARGUMENT;
    }
    answer = thriftacorn_read_frame_v1(bytes != NULL ? bytes : &no_byte, bytes_len,
                                       samples != NULL ? samples : &no_sample, samples_len, &frame->consumed,
                                       &frame->first_sample, &frame->channels, &frame->bits, &frame->block_size);
    frame->first_sample_known = answer == THRIFTACORN_OK;
    return answer;
}

/*
 * The same for the frame at *place, to read an input frame after frame: *place moves past a frame, and a refusal leaves
 * it. A place past the end is answered "nothing left". Start with 0; nothing is skipped.
 */
static inline uint8_t thriftacorn_read_next(const uint8_t *bytes, size_t bytes_len, size_t *place, int32_t *samples,
                                            size_t samples_len, thriftacorn_frame *frame)
{
    const uint8_t no_byte = 0;
    int32_t no_sample = 0;
    const thriftacorn_frame nothing = THRIFTACORN_FRAME_INIT;
    uint8_t answer;
    *frame = nothing;
    if (!thriftacorn_is_slice(bytes, bytes_len) || !thriftacorn_is_slice(samples, samples_len)) {
        return THRIFTACORN_BAD_ARGUMENT;
    }
    answer = thriftacorn_read_next_v1(bytes != NULL ? bytes : &no_byte, bytes_len, place,
                                      samples != NULL ? samples : &no_sample, samples_len, &frame->consumed,
                                      &frame->first_sample, &frame->channels, &frame->bits, &frame->block_size);
    frame->first_sample_known = answer == THRIFTACORN_OK;
    return answer;
}

/* Whether all reserved fields are zero. */
static inline int thriftacorn_is_known_reading(const thriftacorn_read_settings *settings)
{
    uint64_t all = 0;
    size_t i;
    for (i = 0; i < sizeof settings->reserved / sizeof settings->reserved[0]; i++) {
        all |= settings->reserved[i];
    }
    return all == 0;
}

/*
 * What the first frame of a stream says: the size of its blocks is that of the first, whatever its blocking. It takes the
 * frame's header, not the rest of the frame. All of *settings is set; block_given is 0 if the bytes do not start with a
 * header that is whole and right. The answer is 0, or 11 for a slice that is NULL but not empty.
 */
static inline uint8_t thriftacorn_stream_settings(const uint8_t *bytes, size_t bytes_len,
                                                  thriftacorn_read_settings *settings)
{
    const uint8_t no_byte = 0;
    const thriftacorn_read_settings unknown = THRIFTACORN_READ_SETTINGS_INIT;
    *settings = unknown;
    if (!thriftacorn_is_slice(bytes, bytes_len)) {
        return THRIFTACORN_BAD_ARGUMENT;
    }
    settings->block_given = thriftacorn_stream_block_v1(bytes != NULL ? bytes : &no_byte, bytes_len, &settings->block);
    return THRIFTACORN_OK;
}

/*
 * Reads the stream header at the start of `bytes`: fLaC and all metadata blocks. *info is all zero after a refusal: 2 if
 * the input ends within the header, or is empty; 3 for another mark; 4 for a block of type 127; 9 if the first block is
 * not a STREAMINFO of 34 bytes, or the samples have fewer than 4 bits. The frames start after info->consumed bytes.
 */
static inline uint8_t thriftacorn_read_stream_header(const uint8_t *bytes, size_t bytes_len,
                                                     thriftacorn_stream_info *info)
{
    const uint8_t no_byte = 0;
    const thriftacorn_stream_info nothing = THRIFTACORN_STREAM_INFO_INIT;
    uint64_t high = 0;
    uint64_t low = 0;
    uint8_t answer;
    int i;
    *info = nothing;
    if (!thriftacorn_is_slice(bytes, bytes_len)) {
        return THRIFTACORN_BAD_ARGUMENT;
    }
    answer = thriftacorn_read_stream_header_v1(bytes != NULL ? bytes : &no_byte, bytes_len, &info->consumed,
                                               &info->smallest_block, &info->largest_block, &info->smallest_frame,
                                               &info->largest_frame, &info->rate, &info->channels, &info->bits,
                                               &info->samples, &high, &low);
    for (i = 0; i < 8; i++) {
        info->md5[i] = (uint8_t)(high >> (56 - 8 * i));
        info->md5[8 + i] = (uint8_t)(low >> (56 - 8 * i));
    }
    return answer;
}

/*
 * Puts the bits and the rate of a stream header into the settings, and leaves what else they say. Call it after
 * thriftacorn_stream_settings(), which sets all fields.
 */
static inline void thriftacorn_set_stream(thriftacorn_read_settings *settings, const thriftacorn_stream_info *info)
{
    settings->stream_given = 1;
    settings->stream_bits = info->bits;
    settings->stream_rate = info->rate;
}

/*
 * thriftacorn_read_frame() with settings. These are checked before a byte is read: 11, on empty input too. If the size
 * of the stream's blocks is given, then with fixed blocking the number of the first sample is that size times the
 * frame's number, and a block that is larger is refused with 9, after the header and before the room is looked at, with
 * `samples` untouched. If it is unknown, no first sample is known with fixed blocking. With variable blocking the
 * header has the number of the first sample, whatever is given, and the block may have any size. If the stream's bits
 * and rate are given, a frame without its own takes these, and one whose own bits are others is refused with 9 before
 * that; a frame without bits is refused with 8 if they are not given, or are above 24.
 */
static inline uint8_t thriftacorn_read_frame_with(const uint8_t *bytes, size_t bytes_len,
                                                  const thriftacorn_read_settings *settings, int32_t *samples,
                                                  size_t samples_len, thriftacorn_frame *frame)
{
    const uint8_t no_byte = 0;
    int32_t no_sample = 0;
    const thriftacorn_frame nothing = THRIFTACORN_FRAME_INIT;
    *frame = nothing;
    if (!thriftacorn_is_slice(bytes, bytes_len) || !thriftacorn_is_slice(samples, samples_len) ||
        !thriftacorn_is_known_reading(settings)) {
        return THRIFTACORN_BAD_ARGUMENT;
    }
    return thriftacorn_read_frame_v3(bytes != NULL ? bytes : &no_byte, bytes_len, settings->block_given,
                                     settings->block, settings->stream_given, settings->stream_bits,
                                     settings->stream_rate, samples != NULL ? samples : &no_sample, samples_len,
                                     &frame->consumed, &frame->first_sample_known, &frame->first_sample,
                                     &frame->rate_known, &frame->rate, &frame->channels, &frame->bits,
                                     &frame->block_size);
}

/*
 * The same for the frame at *place, as thriftacorn_read_next(). Take the settings once, at the stream's first frame,
 * and use them for all: thriftacorn_stream_settings() at another place would give that frame's own size.
 */
static inline uint8_t thriftacorn_read_next_with(const uint8_t *bytes, size_t bytes_len, size_t *place,
                                                 const thriftacorn_read_settings *settings, int32_t *samples,
                                                 size_t samples_len, thriftacorn_frame *frame)
{
    const uint8_t no_byte = 0;
    int32_t no_sample = 0;
    const thriftacorn_frame nothing = THRIFTACORN_FRAME_INIT;
    *frame = nothing;
    if (!thriftacorn_is_slice(bytes, bytes_len) || !thriftacorn_is_slice(samples, samples_len) ||
        !thriftacorn_is_known_reading(settings)) {
        return THRIFTACORN_BAD_ARGUMENT;
    }
    return thriftacorn_read_next_v3(bytes != NULL ? bytes : &no_byte, bytes_len, place, settings->block_given,
                                    settings->block, settings->stream_given, settings->stream_bits,
                                    settings->stream_rate, samples != NULL ? samples : &no_sample, samples_len,
                                    &frame->consumed, &frame->first_sample_known, &frame->first_sample,
                                    &frame->rate_known, &frame->rate, &frame->channels, &frame->bits,
                                    &frame->block_size);
}

/* Whether all reserved fields are zero. */
static inline int thriftacorn_is_known(const thriftacorn_write_settings *settings)
{
    uint64_t all = settings->reserved_word;
    size_t i;
    for (i = 0; i < sizeof settings->reserved / sizeof settings->reserved[0]; i++) {
        all |= settings->reserved[i];
    }
    return all == 0;
}

/*
 * The length in bytes that no frame with these settings exceeds: an output that long never gets refusal 13. It is 0 if
 * the settings are refused.
 */
static inline size_t thriftacorn_longest(const thriftacorn_write_settings *settings)
{
    if (!thriftacorn_is_known(settings)) {
        return 0;
    }
    return thriftacorn_longest_v1(settings->channel_code, settings->bits, settings->blocking, settings->number,
                                  settings->block_size);
}

/*
 * Writes one frame to the front of `out`, and its length to *length. `samples` are given channel after channel: for
 * two channels left, then right, whatever the channel code. Past the frame `out` is untouched, and after a refusal
 * all of it is. The refusals are checked in this order: 11 for a setting out of range or a number of samples that is
 * not channels times block size, then 12, then 13.
 */
static inline uint8_t thriftacorn_write_frame(const int32_t *samples, size_t samples_len,
                                              const thriftacorn_write_settings *settings, uint8_t *out, size_t out_len,
                                              size_t *length)
{
    const int32_t no_sample = 0;
    uint8_t no_byte = 0;
    *length = 0;
    if (!thriftacorn_is_slice(samples, samples_len) || !thriftacorn_is_slice(out, out_len) ||
        !thriftacorn_is_known(settings)) {
        return THRIFTACORN_BAD_ARGUMENT;
    }
    return thriftacorn_write_frame_v1(samples != NULL ? samples : &no_sample, samples_len, settings->channel_code,
                                      settings->bits, settings->blocking, settings->number, settings->block_size,
                                      out != NULL ? out : &no_byte, out_len, length);
}

/*
 * Access to a frame's samples: where a channel starts and ends, the sample at an index of a channel, and the left and
 * right sample at an index of a frame of two channels. Refusal 11 is for a channel or an index out of range, a pair
 * of a frame without exactly two channels, and fewer samples than the frame has.
 */
static inline uint8_t thriftacorn_channel(const thriftacorn_frame *frame, const int32_t *samples, size_t samples_len,
                                          size_t channel, size_t *start, size_t *end)
{
    const int32_t no_sample = 0;
    *start = 0;
    *end = 0;
    if (!thriftacorn_is_slice(samples, samples_len)) {
        return THRIFTACORN_BAD_ARGUMENT;
    }
    return thriftacorn_channel_v1(samples != NULL ? samples : &no_sample, samples_len, frame->channels,
                                  frame->block_size, channel, start, end);
}

static inline uint8_t thriftacorn_sample(const thriftacorn_frame *frame, const int32_t *samples, size_t samples_len,
                                         size_t channel, size_t index, int32_t *value)
{
    const int32_t no_sample = 0;
    *value = 0;
    if (!thriftacorn_is_slice(samples, samples_len)) {
        return THRIFTACORN_BAD_ARGUMENT;
    }
    return thriftacorn_sample_v1(samples != NULL ? samples : &no_sample, samples_len, frame->channels,
                                 frame->block_size, channel, index, value);
}

static inline uint8_t thriftacorn_pair(const thriftacorn_frame *frame, const int32_t *samples, size_t samples_len,
                                       size_t index, int32_t *left, int32_t *right)
{
    const int32_t no_sample = 0;
    *left = 0;
    *right = 0;
    if (!thriftacorn_is_slice(samples, samples_len)) {
        return THRIFTACORN_BAD_ARGUMENT;
    }
    return thriftacorn_pair_v1(samples != NULL ? samples : &no_sample, samples_len, frame->channels, frame->block_size,
                               index, left, right);
}

#endif
