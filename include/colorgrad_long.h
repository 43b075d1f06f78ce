/* Guineaplume: the calls of version 0.1.0, those of lists that keep their word and that on depths, each argument by itself,
 * answering structs. colorgrad.h includes this header, and says what each does and what a refusal leaves: of
 * colorgrad_flatten at colorgrad_ramp_flatten, and so on; of colorgrad_sharp at colorgrad_build_sharp, of colorgrad_read at
 * colorgrad_read_segments, of colorgrad_write_ggr at colorgrad_write_stops, and of colorgrad_refresh at colorgrad_ramp_edit,
 * since it is an edit of a colour. A record that is const is lent by these alone. */
#ifndef COLORGRAD_H
#error "include colorgrad.h"
#endif
#ifndef COLORGRAD_LONG_H
#define COLORGRAD_LONG_H

#ifdef __cplusplus
extern "C" {
#endif

/* ---- ramps */

static inline ColorgradDomain colorgrad_domain(uint32_t kind, const float *positions, size_t positions_length,
                                               const float *channels, size_t channels_length, const uint8_t *codes,
                                               size_t codes_length)
{
    float ends[2] = {0.0f, 0.0f};
    ColorgradDomain domain = {0, 0.0f, 0.0f};
    domain.refusal = colorgrad_domain_told(kind, positions, positions_length, channels, channels_length, codes,
                                           codes_length, ends, 2);
    domain.min = ends[0];
    domain.max = ends[1];
    return domain;
}

static inline ColorgradColour colorgrad_at(uint32_t kind, const float *positions, size_t positions_length,
                                           const float *channels, size_t channels_length, const uint8_t *codes,
                                           size_t codes_length, float t)
{
    float told[4] = {0.0f, 0.0f, 0.0f, 0.0f};
    uint32_t refusal = colorgrad_at_told(kind, positions, positions_length, channels, channels_length, codes,
                                         codes_length, t, told, 4);
    ColorgradColour shown = {refusal, {told[0], told[1], told[2], told[3]}};
    return shown;
}

static inline ColorgradSharp colorgrad_sharp(const float *colours, size_t colours_length, float min, float max,
                                             float softness, float *positions, size_t positions_length, float *channels,
                                             size_t channels_length)
{
    ColorgradSharp built = {0, 0};
    built.refusal = colorgrad_sharp_told(colours, colours_length, min, max, softness, positions, positions_length,
                                         channels, channels_length, &built.stops, 1);
    return built;
}

/* ---- GIMP gradient files */

static inline ColorgradRead colorgrad_read(const uint8_t *text, size_t text_length, ColorgradRgba foreground,
                                           ColorgradRgba background, float *positions, size_t positions_length,
                                           float *channels, size_t channels_length, uint8_t *codes, size_t codes_length)
{
    size_t told[2] = {0, 0};
    uint32_t refusal = colorgrad_read_told(text, text_length, foreground.r, foreground.g, foreground.b, foreground.a,
                                           background.r, background.g, background.b, background.a, positions,
                                           positions_length, channels, channels_length, codes, codes_length, told, 2);
    ColorgradRead read = {refusal, told[0], told[1]};
    return read;
}

static inline ColorgradRead colorgrad_read_saved(const uint8_t *text, size_t text_length, ColorgradRgba foreground,
                                                 ColorgradRgba background, float *positions, size_t positions_length,
                                                 float *channels, size_t channels_length, uint8_t *codes,
                                                 size_t codes_length)
{
    size_t told[2] = {0, 0};
    uint32_t refusal = colorgrad_read_saved_told(text, text_length, foreground.r, foreground.g, foreground.b,
                                                 foreground.a, background.r, background.g, background.b, background.a,
                                                 positions, positions_length, channels, channels_length, codes,
                                                 codes_length, told, 2);
    ColorgradRead read = {refusal, told[0], told[1]};
    return read;
}

static inline ColorgradWritten colorgrad_write_ggr(const float *positions, size_t positions_length,
                                                   const float *channels, size_t channels_length, uint8_t *text,
                                                   size_t text_length)
{
    ColorgradWritten written = {0, 0};
    written.refusal = colorgrad_write_ggr_told(positions, positions_length, channels, channels_length, text,
                                               text_length, &written.bytes, 1);
    return written;
}

/* ---- records and lists */

static inline ColorgradSampled colorgrad_sample(uint32_t kind, const float *positions, size_t positions_length,
                                                const float *channels, size_t channels_length, const uint8_t *codes,
                                                size_t codes_length, float threshold, float *rows, size_t rows_length,
                                                uint8_t *counts, size_t counts_length, uint32_t *marks,
                                                size_t marks_length)
{
    ColorgradSampled sampled = {0, 0};
    sampled.refusal = colorgrad_sample_told(kind, positions, positions_length, channels, channels_length, codes,
                                            codes_length, threshold, rows, rows_length, counts, counts_length, marks,
                                            marks_length, &sampled.evaluations, 1);
    return sampled;
}

static inline ColorgradListed colorgrad_thin(uint32_t kind, const float *positions, size_t positions_length,
                                             const float *channels, size_t channels_length, const uint8_t *codes,
                                             size_t codes_length, float threshold, const float *rows,
                                             size_t rows_length, const uint8_t *counts, size_t counts_length,
                                             const uint32_t *marks, size_t marks_length, float *places,
                                             size_t places_length, float *colours, size_t colours_length)
{
    size_t told[2] = {0, 0};
    uint32_t refusal = colorgrad_thin_told(kind, positions, positions_length, channels, channels_length, codes,
                                           codes_length, threshold, rows, rows_length, counts, counts_length, marks,
                                           marks_length, places, places_length, colours, colours_length, told, 2);
    ColorgradListed listed = {refusal, told[0], told[1]};
    return listed;
}

static inline ColorgradListed colorgrad_flatten(uint32_t kind, const float *positions, size_t positions_length,
                                                const float *channels, size_t channels_length, const uint8_t *codes,
                                                size_t codes_length, float threshold, float *rows, size_t rows_length,
                                                uint8_t *counts, size_t counts_length, uint32_t *marks,
                                                size_t marks_length, float *places, size_t places_length,
                                                float *colours, size_t colours_length)
{
    size_t told[2] = {0, 0};
    uint32_t refusal = colorgrad_flatten_told(kind, positions, positions_length, channels, channels_length, codes,
                                              codes_length, threshold, rows, rows_length, counts, counts_length, marks,
                                              marks_length, places, places_length, colours, colours_length, told, 2);
    ColorgradListed listed = {refusal, told[0], told[1]};
    return listed;
}

/* As colorgrad_thin and colorgrad_flatten, with the hold after the threshold. */
static inline ColorgradListed colorgrad_thin_within(uint32_t kind, const float *positions, size_t positions_length,
                                                    const float *channels, size_t channels_length,
                                                    const uint8_t *codes, size_t codes_length, float threshold,
                                                    float hold, const float *rows, size_t rows_length,
                                                    const uint8_t *counts, size_t counts_length, const uint32_t *marks,
                                                    size_t marks_length, float *places, size_t places_length,
                                                    float *colours, size_t colours_length)
{
    size_t told[2] = {0, 0};
    uint32_t refusal = colorgrad_thin_within_told(kind, positions, positions_length, channels, channels_length, codes,
                                                  codes_length, threshold, hold, rows, rows_length, counts,
                                                  counts_length, marks, marks_length, places, places_length, colours,
                                                  colours_length, told, 2);
    ColorgradListed listed = {refusal, told[0], told[1]};
    return listed;
}

static inline ColorgradListed colorgrad_flatten_within(uint32_t kind, const float *positions, size_t positions_length,
                                                       const float *channels, size_t channels_length,
                                                       const uint8_t *codes, size_t codes_length, float threshold,
                                                       float hold, float *rows, size_t rows_length, uint8_t *counts,
                                                       size_t counts_length, uint32_t *marks, size_t marks_length,
                                                       float *places, size_t places_length, float *colours,
                                                       size_t colours_length)
{
    size_t told[2] = {0, 0};
    uint32_t refusal = colorgrad_flatten_within_told(kind, positions, positions_length, channels, channels_length,
                                                     codes, codes_length, threshold, hold, rows, rows_length, counts,
                                                     counts_length, marks, marks_length, places, places_length,
                                                     colours, colours_length, told, 2);
    ColorgradListed listed = {refusal, told[0], told[1]};
    return listed;
}

static inline ColorgradHanded colorgrad_next_stop(uint32_t kind, const float *positions, size_t positions_length,
                                                  const float *channels, size_t channels_length, const uint8_t *codes,
                                                  size_t codes_length, float threshold, const float *rows,
                                                  size_t rows_length, const uint8_t *counts, size_t counts_length,
                                                  const uint32_t *marks, size_t marks_length, ColorgradPlace place)
{
    size_t told[5] = {0, 0, 0, 0, 0};
    float stop[5] = {0.0f, 0.0f, 0.0f, 0.0f, 0.0f};
    uint32_t refusal = colorgrad_next_stop_told(kind, positions, positions_length, channels, channels_length, codes,
                                                codes_length, threshold, rows, rows_length, counts, counts_length,
                                                marks, marks_length, place.state, place.row, place.index, told, 5, stop,
                                                5);
    ColorgradHanded handed = {refusal, told[0] != 0, stop[0], {stop[1], stop[2], stop[3], stop[4]}, told[1],
                              {(uint32_t)told[2], (uint32_t)told[3], (uint32_t)told[4]}};
    return handed;
}

static inline ColorgradJudged colorgrad_judge(uint32_t kind, const float *positions, size_t positions_length,
                                              const float *channels, size_t channels_length, const uint8_t *codes,
                                              size_t codes_length, float threshold, const float *places,
                                              size_t places_length, const float *colours, size_t colours_length)
{
    size_t told[4] = {0, 0, 0, 0};
    float t = 0.0f;
    uint32_t refusal = colorgrad_judge_told(kind, positions, positions_length, channels, channels_length, codes,
                                            codes_length, threshold, places, places_length, colours, colours_length,
                                            told, 4, &t, 1);
    ColorgradJudged judged = {refusal, (uint32_t)told[0], told[1], told[2], told[3], t};
    return judged;
}

static inline ColorgradApart colorgrad_apart(uint32_t kind, const float *positions, size_t positions_length,
                                             const float *channels, size_t channels_length, const uint8_t *codes,
                                             size_t codes_length, float threshold, float step, const float *depths,
                                             size_t depths_length, const float *places, size_t places_length,
                                             const float *colours, size_t colours_length, uint8_t *faults,
                                             size_t faults_length)
{
    size_t told[4] = {0, 0, 0, 0};
    uint32_t refusal = colorgrad_apart_told(kind, positions, positions_length, channels, channels_length, codes,
                                            codes_length, threshold, step, depths, depths_length, places,
                                            places_length, colours, colours_length, faults, faults_length, told, 4);
    ColorgradApart apart = {refusal, told[0], told[1], told[2], told[3]};
    return apart;
}

/* ---- edits */

static inline ColorgradSampled colorgrad_edit(uint32_t kind, const float *positions, size_t positions_length,
                                              const float *channels, size_t channels_length, const uint8_t *codes,
                                              size_t codes_length, uint32_t sort, size_t stop, float position,
                                              ColorgradRgba colour, float threshold, float *rows, size_t rows_length,
                                              uint8_t *counts, size_t counts_length, uint32_t *marks,
                                              size_t marks_length)
{
    ColorgradSampled sampled = {0, 0};
    sampled.refusal = colorgrad_edit_told(kind, positions, positions_length, channels, channels_length, codes,
                                          codes_length, sort, stop, position, colour.r, colour.g, colour.b, colour.a,
                                          threshold, rows, rows_length, counts, counts_length, marks, marks_length,
                                          &sampled.evaluations, 1);
    return sampled;
}

static inline ColorgradListed colorgrad_edit_list(uint32_t kind, const float *positions, size_t positions_length,
                                                  const float *channels, size_t channels_length, const uint8_t *codes,
                                                  size_t codes_length, uint32_t sort, size_t stop, float position,
                                                  ColorgradRgba colour, float threshold, float *rows,
                                                  size_t rows_length, uint8_t *counts, size_t counts_length,
                                                  uint32_t *marks, size_t marks_length, float *places,
                                                  size_t places_length, float *colours, size_t colours_length)
{
    size_t told[2] = {0, 0};
    uint32_t refusal = colorgrad_edit_list_told(kind, positions, positions_length, channels, channels_length, codes,
                                                codes_length, sort, stop, position, colour.r, colour.g, colour.b,
                                                colour.a, threshold, rows, rows_length, counts, counts_length, marks,
                                                marks_length, places, places_length, colours, colours_length, told, 2);
    ColorgradListed listed = {refusal, told[0], told[1]};
    return listed;
}

/* A colour alone. */
static inline ColorgradSampled colorgrad_refresh(uint32_t kind, const float *positions, size_t positions_length,
                                                 const float *channels, size_t channels_length, const uint8_t *codes,
                                                 size_t codes_length, size_t stop, ColorgradRgba colour,
                                                 float threshold, float *rows, size_t rows_length, uint8_t *counts,
                                                 size_t counts_length, uint32_t *marks, size_t marks_length)
{
    return colorgrad_edit(kind, positions, positions_length, channels, channels_length, codes, codes_length,
                          COLORGRAD_EDIT_COLOUR, stop, 0.0f, colour, threshold, rows, rows_length, counts,
                          counts_length, marks, marks_length);
}

static inline ColorgradListed colorgrad_refresh_list(uint32_t kind, const float *positions, size_t positions_length,
                                                     const float *channels, size_t channels_length,
                                                     const uint8_t *codes, size_t codes_length, size_t stop,
                                                     ColorgradRgba colour, float threshold, float *rows,
                                                     size_t rows_length, uint8_t *counts, size_t counts_length,
                                                     uint32_t *marks, size_t marks_length, float *places,
                                                     size_t places_length, float *colours, size_t colours_length)
{
    return colorgrad_edit_list(kind, positions, positions_length, channels, channels_length, codes, codes_length,
                               COLORGRAD_EDIT_COLOUR, stop, 0.0f, colour, threshold, rows, rows_length, counts,
                               counts_length, marks, marks_length, places, places_length, colours, colours_length);
}

#ifdef __cplusplus
}
#endif

#endif
