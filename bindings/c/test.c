/*
 * The header's functions, called from C and from C++: RFC 9639's first frame, part of a frame that contains it, frame
 * after frame, what the settings for reading change, writing and reading back, access to a block, and every value
 * stored through a pointer by a refusal.
 */
#include <thriftacorn.h>

#include <stdio.h>
#include <string.h>

static int checks, failures;

static void check(int right, int line, const char *what)
{
    checks++;
    if (!right) {
        failures++;
        printf("test.c:%d: false: %s\n", line, what);
    }
}
#define CHECK(fact) check((fact) != 0, __LINE__, #fact)

/* RFC 9639's first frame: two channels of one sample. */
static const uint8_t whole[15] = {0xFF, 0xF8, 0x69, 0x18, 0x00, 0x00, 0xBF, 0x03,
                                  0x58, 0xFD, 0x03, 0x12, 0x8B, 0xAA, 0x9A};

/*
 * One channel, 8 bits, 191 verbatim samples. Fifteen of them, from byte 107 on, are the bytes of `whole`. It is the
 * stored case `frame-in-sound` of cases/runner.txt.
 */
#define HOLDING 201
#define INSIDE 107
static void make_holding(uint8_t frame[HOLDING])
{
    static const uint8_t head[8] = {0xFF, 0xF8, 0x60, 0x02, 0x00, 0xBE, 0x0F, 0x02};
    int i;
    memcpy(frame, head, sizeof head);
    for (i = 0; i < 191; i++) {
        frame[8 + i] = (uint8_t)(i * i % 251 - 125);
    }
    memcpy(frame + INSIDE, whole, sizeof whole);
    frame[199] = 0x17;
    frame[200] = 0x03;
}

/*
 * The two frames of RFC 9639's second example (appendix D.2), a stream with fixed blocking: 16 samples in two channels,
 * and the last 3, whose frame number is 1.
 */
#define SHORT_FROM 68
static const uint8_t stream[91] = {
    0xFF, 0xF8, 0x69, 0x98, 0x00, 0x0F, 0x99, 0x12, 0x08, 0x67, 0x01, 0x62, 0x3D, 0x14, 0x42, 0x99, 0x8F, 0x5D, 0xF7,
    0x0D, 0x6F, 0xE0, 0x0C, 0x17, 0xCA, 0xEB, 0x21, 0x00, 0x0E, 0xE7, 0xA7, 0x7A, 0x24, 0xA1, 0x59, 0x0C, 0x12, 0x17,
    0xB6, 0x03, 0x09, 0x7B, 0x78, 0x4F, 0xAA, 0x9A, 0x33, 0xD2, 0x85, 0xE0, 0x70, 0xAD, 0x5B, 0x1B, 0x48, 0x51, 0xB4,
    0x01, 0x0D, 0x99, 0xD2, 0xCD, 0x1A, 0x68, 0xF1, 0xE6, 0xB8, 0x10, 0xFF, 0xF8, 0x69, 0x18, 0x01, 0x02, 0xA4, 0x02,
    0xC3, 0x82, 0xC4, 0x0B, 0xC1, 0x4A, 0x03, 0xEE, 0x48, 0xDD, 0x03, 0xB6, 0x7C, 0x13, 0x30};

static void fill(int32_t *samples, size_t count, int32_t value)
{
    size_t i;
    for (i = 0; i < count; i++) {
        samples[i] = value;
    }
}

static int is_nothing(const thriftacorn_frame *frame)
{
    static const thriftacorn_frame nothing = THRIFTACORN_FRAME_INIT;
    return memcmp(frame, &nothing, sizeof nothing) == 0;
}

static void test_whole(void)
{
    thriftacorn_frame frame;
    int32_t samples[4];
    size_t length;
    fill(samples, 4, 7);
    CHECK(thriftacorn_read_frame(whole, sizeof whole, samples, 4, &frame) == THRIFTACORN_OK);
    CHECK(frame.consumed == 15 && frame.channels == 2 && frame.block_size == 1 && frame.bits == 16);
    CHECK(frame.first_sample == 0 && frame.first_sample_known == 1);
    CHECK(samples[0] == 25588 && samples[1] == 10416 && samples[2] == 7 && samples[3] == 7);
    for (length = 0; length < sizeof whole; length++) {
        memset(&frame, 0xFF, sizeof frame);
        fill(samples, 4, 7);
        CHECK(thriftacorn_read_frame(whole, length, samples, 4, &frame) ==
              (length == 0 ? THRIFTACORN_NOTHING_LEFT : THRIFTACORN_CUT_SHORT));
        CHECK(is_nothing(&frame));
        CHECK(samples[0] == (length <= 7 ? 7 : 0) && samples[1] == samples[0] && samples[2] == 7);
    }
    CHECK(thriftacorn_read_frame(whole, sizeof whole, samples, 1, &frame) == THRIFTACORN_NO_ROOM);
    CHECK(is_nothing(&frame));
}

/* Part of a frame is answered with "wait", even if it contains a whole frame. */
static void test_holding(void)
{
    uint8_t bytes[HOLDING];
    int32_t samples[256];
    thriftacorn_frame frame;
    size_t length, place;
    uint8_t answer;
    make_holding(bytes);
    for (length = 0; length < HOLDING; length++) {
        answer = thriftacorn_read_frame(bytes, length, samples, 256, &frame);
        CHECK(thriftacorn_needs(answer) == THRIFTACORN_NEED_WAIT);
    }
    for (place = 1; place < 161; place++) {
        if (thriftacorn_read_frame(bytes + place, 161 - place, samples, 256, &frame) == THRIFTACORN_OK) {
            break;
        }
    }
    CHECK(place == INSIDE && frame.consumed == 15 && frame.channels == 2);
    CHECK(thriftacorn_read_frame(bytes, HOLDING, samples, 256, &frame) == THRIFTACORN_OK);
    CHECK(frame.consumed == HOLDING && frame.channels == 1 && frame.bits == 8 && frame.block_size == 191);
    CHECK(samples[0] == -125 && samples[99] == -1 && samples[100] == -8 && samples[190] == 82);
}

static void test_next(void)
{
    uint8_t row[15 + HOLDING + 15 + 4];
    int32_t samples[256];
    thriftacorn_frame frame;
    size_t place = 0;
    memcpy(row, whole, 15);
    make_holding(row + 15);
    memcpy(row + 15 + HOLDING, whole, 15);
    memcpy(row + 15 + HOLDING + 15, "RIFF", 4);
    CHECK(thriftacorn_read_next(row, sizeof row, &place, samples, 0, &frame) == THRIFTACORN_NO_ROOM);
    CHECK(place == 0 && is_nothing(&frame));
    CHECK(thriftacorn_read_next(row, sizeof row, &place, samples, 256, &frame) == THRIFTACORN_OK);
    CHECK(place == 15 && frame.consumed == 15 && frame.first_sample_known == 1);
    CHECK(thriftacorn_read_next(row, sizeof row, &place, samples, 256, &frame) == THRIFTACORN_OK);
    CHECK(place == 15 + HOLDING && frame.consumed == HOLDING && frame.block_size == 191);
    CHECK(thriftacorn_read_next(row, sizeof row, &place, samples, 256, &frame) == THRIFTACORN_OK);
    CHECK(place == sizeof row - 4 && samples[1] == 10416);
    CHECK(thriftacorn_read_next(row, sizeof row, &place, samples, 256, &frame) == THRIFTACORN_NOT_SYNC);
    CHECK(place == sizeof row - 4 && is_nothing(&frame));
    place = sizeof row;
    CHECK(thriftacorn_read_next(row, sizeof row, &place, samples, 256, &frame) == THRIFTACORN_NOTHING_LEFT);
    place = SIZE_MAX;
    CHECK(thriftacorn_read_next(row, sizeof row, &place, samples, 256, &frame) == THRIFTACORN_NOTHING_LEFT);
    CHECK(place == SIZE_MAX && is_nothing(&frame));
}

/* A stream's last block, read with the size of its blocks known and unknown, and without settings. */
static void test_short(void)
{
    const uint8_t *last = stream + SHORT_FROM;
    const size_t length = sizeof stream - SHORT_FROM;
    thriftacorn_read_settings settings = THRIFTACORN_READ_SETTINGS_INIT;
    thriftacorn_frame frame;
    int32_t samples[32];
    size_t place = 0;
    CHECK(thriftacorn_read_frame_with(last, length, &settings, samples, 6, &frame) == THRIFTACORN_OK);
    CHECK(frame.first_sample_known == 0 && frame.first_sample == 0);
    CHECK(frame.consumed == 23 && frame.channels == 2 && frame.block_size == 3 && frame.bits == 16);
    CHECK(samples[0] == -15486 && samples[5] == -9410);
    settings.block = 1; /* passed over: it is not given */
    CHECK(thriftacorn_read_frame_with(last, length, &settings, samples, 6, &frame) == THRIFTACORN_OK);
    CHECK(frame.first_sample_known == 0 && frame.first_sample == 0);
    CHECK(thriftacorn_stream_settings(stream, sizeof stream, &settings) == THRIFTACORN_OK);
    CHECK(settings.block_given == 1 && settings.block == 16);
    CHECK(thriftacorn_read_frame_with(last, length, &settings, samples, 6, &frame) == THRIFTACORN_OK);
    CHECK(frame.first_sample_known == 1 && frame.first_sample == 16 && frame.block_size == 3);
    CHECK(thriftacorn_read_next_with(stream, sizeof stream, &place, &settings, samples, 32, &frame) == THRIFTACORN_OK);
    CHECK(place == SHORT_FROM && frame.consumed == SHORT_FROM && frame.first_sample == 0);
    CHECK(frame.first_sample_known == 1 && frame.block_size == 16 && samples[0] == 10372 && samples[31] == -8653);
    CHECK(thriftacorn_read_next_with(stream, sizeof stream, &place, &settings, samples, 32, &frame) == THRIFTACORN_OK);
    CHECK(place == sizeof stream && frame.consumed == 23 && frame.first_sample == 16 && samples[0] == -15486);
    CHECK(thriftacorn_read_next_with(stream, sizeof stream, &place, &settings, samples, 32, &frame) ==
          THRIFTACORN_NOTHING_LEFT);
    CHECK(place == sizeof stream && is_nothing(&frame));
    /* Without settings it is placed by the size of its own block. */
    CHECK(thriftacorn_read_frame(last, length, samples, 6, &frame) == THRIFTACORN_OK && frame.first_sample == 3);
    place = SHORT_FROM;
    CHECK(thriftacorn_read_next(stream, sizeof stream, &place, samples, 6, &frame) == THRIFTACORN_OK);
    CHECK(frame.first_sample == 3 && frame.first_sample_known == 1);
}

/* A block larger than the stream's: refused with fixed blocking, after the header, before the room. */
static void test_larger(void)
{
    /* Two samples, with the bits left to the stream's header. */
    static const uint8_t without_bits[7] = {0xFF, 0xF8, 0x60, 0x00, 0x00, 0x01, 0xED};
    const uint8_t *last = stream + SHORT_FROM;
    thriftacorn_read_settings settings = THRIFTACORN_READ_SETTINGS_INIT;
    thriftacorn_write_settings variable = THRIFTACORN_WRITE_SETTINGS_INIT;
    thriftacorn_frame frame;
    int32_t samples[6] = {7, 7, 7, 7, 7, 7};
    uint8_t out[32];
    size_t length, room, place = SHORT_FROM;
    settings.block_given = 1;
    settings.block = 2;
    for (length = 0; length <= 23; length++) {
        CHECK(thriftacorn_read_frame_with(last, length, &settings, samples, 6, &frame) ==
              (length == 0  ? THRIFTACORN_NOTHING_LEFT
               : length < 7 ? THRIFTACORN_CUT_SHORT
                            : THRIFTACORN_BAD_SHAPE));
        CHECK(is_nothing(&frame) && samples[0] == 7 && samples[5] == 7);
    }
    CHECK(thriftacorn_read_next_with(stream, sizeof stream, &place, &settings, samples, 6, &frame) ==
          THRIFTACORN_BAD_SHAPE);
    CHECK(place == SHORT_FROM && is_nothing(&frame) && samples[0] == 7);
    for (room = 0; room < 6; room++) {
        settings.block = 2;
        CHECK(thriftacorn_read_frame_with(last, 23, &settings, samples, room, &frame) == THRIFTACORN_BAD_SHAPE);
        settings.block = 3;
        CHECK(thriftacorn_read_frame_with(last, 23, &settings, samples, room, &frame) == THRIFTACORN_NO_ROOM);
    }
    CHECK(samples[0] == 7 && samples[5] == 7);
    settings.block = 1;
    CHECK(thriftacorn_read_frame_with(without_bits, 7, &settings, samples, 6, &frame) == THRIFTACORN_NOT_DONE);
    variable.bits = 16;
    variable.blocking = THRIFTACORN_VARIABLE;
    variable.number = 40;
    variable.block_size = 6;
    CHECK(thriftacorn_write_frame(samples, 6, &variable, out, sizeof out, &length) == THRIFTACORN_OK);
    CHECK(thriftacorn_read_frame_with(out, length, &settings, samples, 6, &frame) == THRIFTACORN_OK);
    CHECK(frame.first_sample_known == 1 && frame.first_sample == 40 && frame.block_size == 6);
    settings.block_given = 0;
    CHECK(thriftacorn_read_frame_with(out, length, &settings, samples, 6, &frame) == THRIFTACORN_OK);
    CHECK(frame.first_sample_known == 1 && frame.first_sample == 40);
}

/* Settings for reading that are refused, before a byte is read. */
static void test_read_settings(void)
{
    static const size_t sizes[5] = {0, 65536, 65537, SIZE_MAX / 2 + 2, SIZE_MAX};
    static const uint32_t depths[4] = {0, 3, 33, UINT32_MAX};
    const thriftacorn_read_settings unknown = THRIFTACORN_READ_SETTINGS_INIT;
    thriftacorn_read_settings settings = unknown;
    thriftacorn_frame frame;
    int32_t samples[2] = {7, 7};
    size_t i, length, place = 0;
    CHECK(thriftacorn_read_frame_with(NULL, 0, &settings, NULL, 0, &frame) == THRIFTACORN_NOTHING_LEFT);
    settings.block_given = 1;
    for (i = 0; i < 5; i++) {
        settings.block = sizes[i];
        for (length = 0; length <= sizeof whole; length++) {
            memset(&frame, 0xFF, sizeof frame);
            CHECK(thriftacorn_read_frame_with(whole, length, &settings, samples, 2, &frame) ==
                  THRIFTACORN_BAD_ARGUMENT);
            CHECK(is_nothing(&frame));
        }
        CHECK(thriftacorn_read_next_with(whole, 15, &place, &settings, samples, 2, &frame) ==
              THRIFTACORN_BAD_ARGUMENT);
        CHECK(place == 0 && is_nothing(&frame));
    }
    settings = unknown;
    settings.block_given = 2;
    settings.block = 1;
    CHECK(thriftacorn_read_frame_with(whole, 15, &settings, samples, 2, &frame) == THRIFTACORN_BAD_ARGUMENT);
    CHECK(thriftacorn_read_next_with(whole, 15, &place, &settings, samples, 2, &frame) == THRIFTACORN_BAD_ARGUMENT);
    for (i = 0; i < 7; i++) {
        settings = unknown;
        settings.reserved[i] = UINT64_C(1) << 63;
        CHECK(thriftacorn_read_frame_with(whole, 15, &settings, samples, 2, &frame) == THRIFTACORN_BAD_ARGUMENT);
        CHECK(thriftacorn_read_next_with(whole, 15, &place, &settings, samples, 2, &frame) ==
              THRIFTACORN_BAD_ARGUMENT);
    }
    settings = unknown;
    settings.stream_given = 2;
    settings.stream_bits = 16;
    CHECK(thriftacorn_read_frame_with(whole, 15, &settings, samples, 2, &frame) == THRIFTACORN_BAD_ARGUMENT);
    settings.stream_given = 1;
    for (i = 0; i < 4; i++) {
        settings.stream_bits = depths[i];
        for (length = 0; length <= sizeof whole; length++) {
            memset(&frame, 0xFF, sizeof frame);
            CHECK(thriftacorn_read_frame_with(whole, length, &settings, samples, 2, &frame) ==
                  THRIFTACORN_BAD_ARGUMENT);
            CHECK(is_nothing(&frame));
        }
    }
    CHECK(place == 0 && is_nothing(&frame) && samples[0] == 7 && samples[1] == 7);
    settings = unknown;
    settings.block_given = 1;
    for (settings.block = 1; settings.block <= 65535; settings.block += 65534) {
        CHECK(thriftacorn_read_frame_with(whole, 15, &settings, samples, 2, &frame) == THRIFTACORN_OK);
        CHECK(frame.first_sample_known == 1 && frame.first_sample == 0 && samples[1] == 10416);
    }
}

/* The stream of RFC 9639's first example, appendix D.1, up to its frame. */
static const uint8_t header[42] = {
    'f', 'L', 'a', 'C', 0x80, 0, 0, 34, 0x10, 0, 0x10, 0, 0, 0, 0x0F, 0, 0, 0x0F, 0x0A, 0xC4, 0x42,
    0xF0, 0, 0, 0, 1, 0x3E, 0x84, 0xB4, 0x18, 0x07, 0xDC, 0x69, 0x03, 0x07, 0x58, 0x6A, 0x3D, 0xAD, 0x1A,
    0x2E, 0x0F,
};

/* A stream header, whole and cut anywhere, and its refusals. */
static void test_stream_header(void)
{
    static const thriftacorn_stream_info nothing = THRIFTACORN_STREAM_INFO_INIT;
    thriftacorn_stream_info info;
    uint8_t other[42];
    size_t length;
    for (length = 0; length < sizeof header; length++) {
        memset(&info, 0xFF, sizeof info);
        CHECK(thriftacorn_read_stream_header(header, length, &info) == THRIFTACORN_CUT_SHORT);
        CHECK(memcmp(&info, &nothing, sizeof info) == 0);
    }
    CHECK(thriftacorn_read_stream_header(header, sizeof header, &info) == THRIFTACORN_OK);
    CHECK(info.consumed == 42 && info.smallest_block == 4096 && info.largest_block == 4096);
    CHECK(info.smallest_frame == 15 && info.largest_frame == 15 && info.rate == 44100 && info.channels == 2);
    CHECK(info.bits == 16 && info.samples == 1 && memcmp(info.md5, header + 26, 16) == 0);
    memcpy(other, header, sizeof other);
    other[3] = 'X';
    CHECK(thriftacorn_read_stream_header(other, sizeof other, &info) == THRIFTACORN_NOT_SYNC);
    other[3] = 'C';
    other[4] = 0x7F;
    CHECK(thriftacorn_read_stream_header(other, sizeof other, &info) == THRIFTACORN_RESERVED);
    other[4] = 0x81;
    CHECK(thriftacorn_read_stream_header(other, 5, &info) == THRIFTACORN_BAD_SHAPE);
    other[4] = 0x80;
    other[7] = 35;
    CHECK(thriftacorn_read_stream_header(other, 8, &info) == THRIFTACORN_BAD_SHAPE);
    CHECK(memcmp(&info, &nothing, sizeof info) == 0);
    CHECK(thriftacorn_read_stream_header(NULL, 0, &info) == THRIFTACORN_CUT_SHORT);
    CHECK(thriftacorn_read_stream_header(NULL, 1, &info) == THRIFTACORN_BAD_ARGUMENT);
}

/* The bits and the rate of the stream: taken where the frame has none, and held against its own bits. */
static void test_stream_record(void)
{
    /* One sample of 13 bits, -1, which the frame's header leaves to the stream, as it does the rate. */
    static const uint8_t left[12] = {0xFF, 0xF8, 0x60, 0, 0, 0, 0xEA, 0x02, 0xFF, 0xF8, 0x14, 0x8E};
    thriftacorn_read_settings settings = THRIFTACORN_READ_SETTINGS_INIT;
    thriftacorn_stream_info info = THRIFTACORN_STREAM_INFO_INIT;
    thriftacorn_frame frame;
    int32_t samples[2] = {7, 7};
    size_t place = 0;
    CHECK(thriftacorn_read_frame_with(left, 12, &settings, samples, 2, &frame) == THRIFTACORN_NOT_DONE);
    info.bits = 13;
    info.rate = 250000;
    thriftacorn_set_stream(&settings, &info);
    CHECK(thriftacorn_read_frame_with(whole, 15, &settings, samples, 0, &frame) == THRIFTACORN_BAD_SHAPE);
    CHECK(is_nothing(&frame) && samples[0] == 7);
    CHECK(thriftacorn_read_frame_with(left, 12, &settings, samples, 2, &frame) == THRIFTACORN_OK);
    CHECK(frame.bits == 13 && frame.rate_known == 1 && frame.rate == 250000 && samples[0] == -1 && samples[1] == 7);
    samples[0] = 7;
    settings.stream_bits = 25;
    CHECK(thriftacorn_read_next_with(left, 12, &place, &settings, samples, 2, &frame) == THRIFTACORN_NOT_DONE);
    settings.stream_bits = 13;
    CHECK(thriftacorn_read_next_with(left, 12, &place, &settings, samples, 2, &frame) == THRIFTACORN_OK);
    CHECK(place == 12 && frame.bits == 13 && frame.rate == 250000 && samples[0] == -1);
    settings.stream_bits = 16;
    CHECK(thriftacorn_read_frame_with(whole, 15, &settings, samples, 2, &frame) == THRIFTACORN_OK);
    CHECK(frame.bits == 16 && frame.rate_known == 1 && frame.rate == 44100 && samples[0] == 25588);
}

/* What the beginning of a stream says of its blocks. */
static void test_stream_settings(void)
{
    static const thriftacorn_read_settings unknown = THRIFTACORN_READ_SETTINGS_INIT;
    thriftacorn_read_settings settings;
    size_t length;
    for (length = 0; length <= 23; length++) {
        memset(&settings, 0xFF, sizeof settings);
        CHECK(thriftacorn_stream_settings(stream + SHORT_FROM, length, &settings) == THRIFTACORN_OK);
        CHECK(length < 7 ? memcmp(&settings, &unknown, sizeof unknown) == 0
                         : settings.block_given == 1 && settings.block == 3 && settings.stream_given == 0);
    }
    memset(&settings, 0xFF, sizeof settings);
    CHECK(thriftacorn_stream_settings(NULL, 0, &settings) == THRIFTACORN_OK && settings.block_given == 0);
    memset(&settings, 0xFF, sizeof settings);
    CHECK(thriftacorn_stream_settings(NULL, 1, &settings) == THRIFTACORN_BAD_ARGUMENT);
    CHECK(memcmp(&settings, &unknown, sizeof unknown) == 0);
}

static void test_write(void)
{
    static const int32_t samples[8] = {1, 2, 3, 4, -1, -2, -3, -4};
#ifdef __cplusplus
    thriftacorn_write_settings settings = THRIFTACORN_WRITE_SETTINGS_INIT;
    settings.channel_code = THRIFTACORN_MID_SIDE;
    settings.bits = 16;
    settings.number = 3;
    settings.block_size = 4;
#else
    thriftacorn_write_settings settings = {
        .channel_code = THRIFTACORN_MID_SIDE, .bits = 16, .number = 3, .block_size = 4};
#endif
    uint8_t out[64];
    int32_t again[8];
    thriftacorn_frame frame;
    size_t length = 99, longest = thriftacorn_longest(&settings), room;
    CHECK(0 < longest && longest <= sizeof out);
    memset(out, 9, sizeof out);
    CHECK(thriftacorn_write_frame(samples, 8, &settings, out, longest, &length) == THRIFTACORN_OK);
    CHECK(0 < length && length <= longest && out[length] == 9);
    CHECK(thriftacorn_read_frame(out, length, again, 8, &frame) == THRIFTACORN_OK);
    CHECK(frame.consumed == length && frame.channels == 2 && frame.block_size == 4 && frame.first_sample == 12);
    CHECK(memcmp(again, samples, sizeof again) == 0);
    settings.blocking = THRIFTACORN_VARIABLE;
    CHECK(thriftacorn_write_frame(samples, 8, &settings, out, longest, &room) == THRIFTACORN_OK);
    CHECK(thriftacorn_read_frame(out, room, again, 8, &frame) == THRIFTACORN_OK && frame.first_sample == 3);
    memset(out, 9, sizeof out);
    for (room = 0; room < length; room++) {
        size_t none = 99;
        CHECK(thriftacorn_write_frame(samples, 8, &settings, out, room, &none) == THRIFTACORN_OUTPUT_ROOM);
        CHECK(none == 0 && out[0] == 9 && out[room] == 9);
    }
}

/* A reserved field may become a setting later, so it is refused and not ignored. */
static void test_settings(void)
{
    const thriftacorn_write_settings nothing = THRIFTACORN_WRITE_SETTINGS_INIT;
    thriftacorn_write_settings settings = nothing;
    static const int32_t sample = 5, loud = 32768;
    uint8_t out[32];
    size_t length, i;
    settings.bits = 16;
    settings.block_size = 1;
    CHECK(thriftacorn_longest(&settings) == 19 && thriftacorn_longest(&nothing) == 0);
    CHECK(thriftacorn_write_frame(&sample, 1, &settings, out, 32, &length) == THRIFTACORN_OK && length == 12);
    CHECK(thriftacorn_write_frame(&loud, 1, &settings, out, 32, &length) == THRIFTACORN_SAMPLE_RANGE && length == 0);
    length = 99;
    CHECK(thriftacorn_write_frame(&sample, 1, &nothing, out, 32, &length) == THRIFTACORN_BAD_ARGUMENT && length == 0);
    for (i = 0; i < 8; i++) {
        thriftacorn_write_settings later = settings;
        later.reserved[i] = UINT64_C(1) << 63;
        CHECK(thriftacorn_write_frame(&sample, 1, &later, out, 32, &length) == THRIFTACORN_BAD_ARGUMENT);
        CHECK(thriftacorn_longest(&later) == 0 && length == 0);
    }
    settings.reserved_word = 1;
    CHECK(thriftacorn_longest(&settings) == 0);
    settings.reserved_word = 0;
    settings.channel_code = THRIFTACORN_LEFT_SIDE;
    settings.block_size = 4096;
    CHECK(thriftacorn_longest(&settings) == 16914);
    settings.number = UINT64_C(1) << 31;
    CHECK(thriftacorn_longest(&settings) == 0);
    settings.blocking = THRIFTACORN_VARIABLE;
    CHECK(thriftacorn_longest(&settings) == 16914);
}

static void test_block(void)
{
    static const int32_t samples[7] = {1, 2, 3, 4, 5, 6, 7};
    thriftacorn_frame frame = THRIFTACORN_FRAME_INIT;
    size_t start, end, channel;
    int32_t left, right;
    frame.channels = 3;
    frame.block_size = 2;
    for (channel = 0; channel < 3; channel++) {
        CHECK(thriftacorn_channel(&frame, samples, 7, channel, &start, &end) == THRIFTACORN_OK);
        CHECK(start == 2 * channel && end == 2 * channel + 2);
        CHECK(thriftacorn_sample(&frame, samples, 7, channel, 1, &left) == THRIFTACORN_OK);
        CHECK(left == samples[2 * channel + 1]);
    }
    CHECK(thriftacorn_channel(&frame, samples, 7, 3, &start, &end) == THRIFTACORN_BAD_ARGUMENT);
    CHECK(start == 0 && end == 0);
    CHECK(thriftacorn_channel(&frame, samples, 5, 0, &start, &end) == THRIFTACORN_BAD_ARGUMENT);
    CHECK(thriftacorn_sample(&frame, samples, 7, 0, 2, &left) == THRIFTACORN_BAD_ARGUMENT && left == 0);
    CHECK(thriftacorn_pair(&frame, samples, 7, 0, &left, &right) == THRIFTACORN_BAD_ARGUMENT);
    frame.channels = 2;
    frame.block_size = 3;
    CHECK(thriftacorn_pair(&frame, samples, 7, 2, &left, &right) == THRIFTACORN_OK && left == 3 && right == 6);
    CHECK(thriftacorn_pair(&frame, samples, 7, 3, &left, &right) == THRIFTACORN_BAD_ARGUMENT);
    CHECK(left == 0 && right == 0);
}

/* What the library itself stores through pointers on a refusal, whatever was there before. */
static void test_values(void)
{
    size_t consumed = 99, channels = 99, size = 99, place = 1, start = 99, end = 99, length = 99;
    uint64_t first = 99;
    uint32_t bits = 99, known = 99, rated = 99, rate = 99;
    int32_t samples[2] = {7, 7}, value = 99, left = 99, right = 99;
    uint8_t out[4] = {9, 9, 9, 9};
    CHECK(thriftacorn_read_frame_v1(whole, 15, samples, 1, &consumed, &first, &channels, &bits, &size) == 7);
    CHECK(consumed == 0 && first == 0 && channels == 0 && bits == 0 && size == 0);
    consumed = channels = size = 99;
    first = bits = 99;
    CHECK(thriftacorn_read_next_v1(whole, 15, &place, samples, 2, &consumed, &first, &channels, &bits, &size) == 3);
    CHECK(consumed == 0 && first == 0 && channels == 0 && bits == 0 && size == 0 && place == 1);
    consumed = channels = size = 99;
    first = bits = known = 99;
    CHECK(thriftacorn_read_frame_v2(whole, 15, 1, 1, samples, 1, &consumed, &known, &first, &channels, &bits,
                                    &size) == 7);
    CHECK(consumed == 0 && known == 0 && first == 0 && channels == 0 && bits == 0 && size == 0);
    consumed = channels = size = 99;
    first = bits = known = 99;
    CHECK(thriftacorn_read_next_v2(whole, 15, &place, 2, 1, samples, 2, &consumed, &known, &first, &channels, &bits,
                                   &size) == 11);
    CHECK(consumed == 0 && known == 0 && first == 0 && channels == 0 && bits == 0 && size == 0 && place == 1);
    consumed = channels = size = 99;
    first = bits = known = rated = rate = 99;
    CHECK(thriftacorn_read_frame_v3(whole, 15, 1, 1, 1, 12, 1, samples, 2, &consumed, &known, &first, &rated, &rate,
                                    &channels, &bits, &size) == 9);
    CHECK(consumed == 0 && known == 0 && first == 0 && rated == 0 && rate == 0 && channels == 0 && bits == 0);
    CHECK(size == 0);
    consumed = channels = size = 99;
    first = bits = known = rated = rate = 99;
    CHECK(thriftacorn_read_next_v3(whole, 15, &place, 0, 0, 3, 16, 1, samples, 2, &consumed, &known, &first, &rated,
                                   &rate, &channels, &bits, &size) == 11);
    CHECK(consumed == 0 && known == 0 && first == 0 && rated == 0 && rate == 0 && channels == 0 && bits == 0);
    CHECK(size == 0 && place == 1);
    CHECK(thriftacorn_stream_block_v1(whole, 6, &start) == 0 && start == 0);
    CHECK(thriftacorn_stream_block_v1(whole, 7, &start) == 1 && start == 1);
    start = 99;
    CHECK(thriftacorn_write_frame_v1(samples, 2, 0, 16, 0, 0, 2, out, 4, &length) == 13 && length == 0);
    CHECK(out[0] == 9 && out[3] == 9 && samples[0] == 7 && samples[1] == 7);
    CHECK(thriftacorn_channel_v1(samples, 2, 2, 1, 2, &start, &end) == 11 && start == 0 && end == 0);
    CHECK(thriftacorn_sample_v1(samples, 2, 2, 1, 0, 1, &value) == 11 && value == 0);
    CHECK(thriftacorn_pair_v1(samples, 2, 1, 2, 0, &left, &right) == 11 && left == 0 && right == 0);
    CHECK(thriftacorn_longest_v1(0, 16, 2, 0, 1) == 0);
}

/* An empty slice may be NULL; any other NULL slice is refused. */
static void test_null(void)
{
    thriftacorn_write_settings settings = THRIFTACORN_WRITE_SETTINGS_INIT;
    const thriftacorn_read_settings unknown = THRIFTACORN_READ_SETTINGS_INIT;
    thriftacorn_frame frame = THRIFTACORN_FRAME_INIT;
    size_t place = 0, length = 99, start = 99, end = 99;
    int32_t value = 99, left = 99, right = 99;
    CHECK(thriftacorn_read_frame(NULL, 0, NULL, 0, &frame) == THRIFTACORN_NOTHING_LEFT);
    CHECK(thriftacorn_read_frame(whole, 15, NULL, 0, &frame) == THRIFTACORN_NO_ROOM);
    CHECK(thriftacorn_read_frame(whole, 15, NULL, 2, &frame) == THRIFTACORN_BAD_ARGUMENT);
    CHECK(thriftacorn_read_frame(NULL, 15, NULL, 0, &frame) == THRIFTACORN_BAD_ARGUMENT);
    CHECK(thriftacorn_read_next(NULL, 0, &place, NULL, 0, &frame) == THRIFTACORN_NOTHING_LEFT && place == 0);
    CHECK(thriftacorn_read_next(NULL, 1, &place, NULL, 0, &frame) == THRIFTACORN_BAD_ARGUMENT && place == 0);
    CHECK(thriftacorn_read_frame_with(whole, 15, &unknown, NULL, 2, &frame) == THRIFTACORN_BAD_ARGUMENT);
    CHECK(thriftacorn_read_frame_with(NULL, 15, &unknown, NULL, 0, &frame) == THRIFTACORN_BAD_ARGUMENT);
    CHECK(thriftacorn_read_frame_with(whole, 15, &unknown, NULL, 0, &frame) == THRIFTACORN_NO_ROOM);
    CHECK(thriftacorn_read_next_with(NULL, 0, &place, &unknown, NULL, 0, &frame) == THRIFTACORN_NOTHING_LEFT);
    CHECK(thriftacorn_read_next_with(NULL, 1, &place, &unknown, NULL, 0, &frame) == THRIFTACORN_BAD_ARGUMENT);
    CHECK(place == 0);
    settings.bits = 16;
    settings.block_size = 1;
    CHECK(thriftacorn_write_frame(&value, 1, &settings, NULL, 0, &length) == THRIFTACORN_OUTPUT_ROOM && length == 0);
    CHECK(thriftacorn_write_frame(&value, 1, &settings, NULL, 19, &length) == THRIFTACORN_BAD_ARGUMENT);
    CHECK(thriftacorn_write_frame(NULL, 0, &settings, NULL, 0, &length) == THRIFTACORN_BAD_ARGUMENT);
    frame.channels = 2;
    CHECK(thriftacorn_channel(&frame, NULL, 0, 1, &start, &end) == THRIFTACORN_OK && start == 0 && end == 0);
    CHECK(thriftacorn_channel(&frame, NULL, 9, 1, &start, &end) == THRIFTACORN_BAD_ARGUMENT);
    CHECK(thriftacorn_sample(&frame, NULL, 0, 1, 0, &value) == THRIFTACORN_BAD_ARGUMENT && value == 0);
    CHECK(thriftacorn_pair(&frame, NULL, 0, 0, &left, &right) == THRIFTACORN_BAD_ARGUMENT && left == 0 && right == 0);
}

static void test_needs(void)
{
    int answer, other;
    for (answer = 0; answer < 256; answer++) {
        enum thriftacorn_need need = answer == 0                   ? THRIFTACORN_NEED_NOTHING
                                     : answer == 1 || answer == 2 ? THRIFTACORN_NEED_WAIT
                                     : answer == 7                ? THRIFTACORN_NEED_ROOM
                                                                  : THRIFTACORN_NEED_FINAL;
        CHECK(thriftacorn_needs((uint8_t)answer) == need);
    }
    for (answer = 0; answer < 15; answer++) {
        for (other = 0; other < answer; other++) {
            CHECK(strcmp(thriftacorn_words((uint8_t)answer), thriftacorn_words((uint8_t)other)) != 0);
        }
    }
}

/* The structs keep their sizes and their fields' offsets, so code built with two versions of the header can link. */
static void test_layout(void)
{
    CHECK(THRIFTACORN_ROOM == 8 * 65535);
    if (sizeof(size_t) == 8) {
        CHECK(sizeof(thriftacorn_frame) == 104 && offsetof(thriftacorn_frame, reserved) == 48);
        CHECK(offsetof(thriftacorn_frame, first_sample) == 24 && offsetof(thriftacorn_frame, bits) == 36);
        CHECK(offsetof(thriftacorn_frame, rate) == 40 && offsetof(thriftacorn_frame, rate_known) == 44);
        CHECK(sizeof(thriftacorn_write_settings) == 96 && offsetof(thriftacorn_write_settings, reserved) == 32);
        CHECK(offsetof(thriftacorn_write_settings, number) == 16);
        CHECK(sizeof(thriftacorn_read_settings) == 80 && offsetof(thriftacorn_read_settings, reserved) == 24);
        CHECK(offsetof(thriftacorn_read_settings, block) == 8);
        CHECK(sizeof(thriftacorn_stream_info) == 128 && offsetof(thriftacorn_stream_info, md5) == 48);
    }
}

int main(void)
{
    test_whole();
    test_holding();
    test_next();
    test_short();
    test_larger();
    test_read_settings();
    test_stream_settings();
    test_stream_header();
    test_stream_record();
    test_write();
    test_settings();
    test_block();
    test_values();
    test_null();
    test_needs();
    test_layout();
    printf("thriftacorn.h %s: %d checks, %d failed\n", THRIFTACORN_VERSION, checks, failures);
    return failures != 0;
}
