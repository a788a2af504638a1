/* libFLAC's decoder on a stream in memory, frame by frame, without its MD5. For bench/src/readers.rs. */
#include <FLAC/stream_decoder.h>
#include <stdint.h>
#include <stdlib.h>
#include <string.h>

struct state {
    FLAC__StreamDecoder *decoder;
    const uint8_t *stream;
    size_t length, place;
    int32_t *copy; /* where the next frame's samples go, or NULL */
    size_t room, samples;
};

static FLAC__StreamDecoderReadStatus give(const FLAC__StreamDecoder *decoder, FLAC__byte *bytes, size_t *count, void *of) {
    struct state *state = of;
    (void)decoder;
    if (*count > state->length - state->place)
        *count = state->length - state->place;
    if (*count == 0)
        return FLAC__STREAM_DECODER_READ_STATUS_END_OF_STREAM;
    memcpy(bytes, state->stream + state->place, *count);
    state->place += *count;
    return FLAC__STREAM_DECODER_READ_STATUS_CONTINUE;
}

static FLAC__StreamDecoderWriteStatus take(const FLAC__StreamDecoder *decoder, const FLAC__Frame *frame,
                                           const FLAC__int32 *const channels[], void *of) {
    struct state *state = of;
    size_t size = frame->header.blocksize;
    (void)decoder;
    state->samples = size * frame->header.channels;
    if (state->copy != NULL && state->samples <= state->room)
        for (unsigned channel = 0; channel < frame->header.channels; channel++)
            memcpy(state->copy + channel * size, channels[channel], size * sizeof(int32_t));
    return FLAC__STREAM_DECODER_WRITE_STATUS_CONTINUE;
}

static void fail(const FLAC__StreamDecoder *decoder, FLAC__StreamDecoderErrorStatus status, void *of) {
    (void)decoder, (void)status;
    ((struct state *)of)->length = 0;
    ((struct state *)of)->place = 0;
}

/* A decoder that has read the stream's metadata; NULL if it cannot be had. */
struct state *libflac_open(const uint8_t *stream, size_t length) {
    struct state *state = calloc(1, sizeof *state);
    if (state == NULL)
        return NULL;
    state->stream = stream;
    state->length = length;
    state->decoder = FLAC__stream_decoder_new();
    if (state->decoder != NULL && FLAC__stream_decoder_set_md5_checking(state->decoder, false) &&
        FLAC__stream_decoder_init_stream(state->decoder, give, NULL, NULL, NULL, NULL, take, NULL, fail, state) ==
            FLAC__STREAM_DECODER_INIT_STATUS_OK &&
        FLAC__stream_decoder_process_until_end_of_metadata(state->decoder))
        return state;
    free(state);
    return NULL;
}

/* Decodes the next frame and returns how many samples it has; 0 if there is none. */
size_t libflac_next(struct state *state, int32_t *copy, size_t room) {
    state->copy = copy;
    state->room = room;
    state->samples = 0;
    FLAC__stream_decoder_process_single(state->decoder);
    return state->samples;
}

void libflac_close(struct state *state) {
    FLAC__stream_decoder_delete(state->decoder);
    free(state);
}
