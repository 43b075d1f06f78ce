/* Ramps put together from the bytes that come. */
#ifndef RAMPS_H
#define RAMPS_H

#include "lent.h"

#define MOST 64 /* stops or segments of a fuzzed ramp */

typedef struct {
    uint32_t kind;
    float threshold;
    float *positions, *channels;
    uint8_t *codes;
    size_t positions_length, channels_length, codes_length;
    uint8_t room;
} Ramp;

#define LENT_RAMP(r) \
    (r).kind, (r).positions, (r).positions_length, (r).channels, (r).channels_length, (r).codes, (r).codes_length

/* Segments and not stops. */
static int of_segments(uint32_t kind)
{
    return kind == COLORGRAD_GIMP || kind == COLORGRAD_GIMP_SAVED;
}

/* Kind, way, lengths, room, threshold, then items: as raw numbers, or from a byte each, in order. */
static Ramp ramp_of(Bytes *in)
{
    Ramp ramp;
    float positions[3 * MOST], channels[8 * MOST], at = 0.0f;
    uint8_t codes[2 * MOST], way, twist;
    size_t n, per;
    ramp.kind = byte(in) % 8;
    way = byte(in);
    twist = byte(in);
    ramp.room = byte(in);
    ramp.threshold = number(in);
    per = (of_segments(ramp.kind) ? 11 : 5) * (way & 1 ? 4 : 1);
    n = in->left / per < MOST ? in->left / per : MOST;
    if (ramp.kind == COLORGRAD_SHARP)
        n -= n % 2;
    ramp.positions_length = (of_segments(ramp.kind) ? 3 : 1) * n;
    ramp.channels_length = (of_segments(ramp.kind) ? 8 : 4) * n;
    ramp.codes_length = of_segments(ramp.kind) ? 2 * n : 0;
    for (size_t i = 0; i < ramp.positions_length; i++) {
        at += (float)byte(in) / 256.0f;
        positions[i] = way & 1 ? number(in) : at;
    }
    for (size_t i = 0; i < ramp.channels_length; i++)
        channels[i] = way & 1 ? number(in) : (float)byte(in) / 255.0f;
    for (size_t i = 0; i < ramp.codes_length; i++)
        codes[i] = i % 2 ? 0 : (uint8_t)((way >> 1) % 6);
    /* now and then a length is off by one */
    if (twist == 255 && ramp.channels_length)
        ramp.channels_length--;
    if (twist == 254 && ramp.positions_length)
        ramp.positions_length--;
    ramp.positions = own(positions, ramp.positions_length * sizeof(float));
    ramp.channels = own(channels, ramp.channels_length * sizeof(float));
    ramp.codes = own(codes, ramp.codes_length);
    return ramp;
}

static void drop(Ramp ramp)
{
    free(ramp.positions);
    free(ramp.channels);
    free(ramp.codes);
}

#endif
