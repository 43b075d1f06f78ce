/* Guineaplume: the calls of the library itself, as a binding sees them. Programs in C include colorgrad.h, which says what
 * each call does and what a refusal leaves.
 *
 * A call takes numbers and slices, and answers one number: 0 or the refusal (colorgrad_message has them), where nothing else
 * is said. A slice is a pointer and how many items it has. What more a call has to say it writes to `told` or to another
 * slice at its end, from the slice's start: as much as there is room for, the rest is dropped; what lies past it stays. Where
 * a call is refused these numbers are 0, unless something else is said. So one module is right on every machine: no call
 * hands over a struct. */
#ifndef COLORGRAD_CALLS_H
#define COLORGRAD_CALLS_H

#include <stddef.h>
#include <stdint.h>

#if SIZE_MAX != UINT64_MAX
#error "the library's lengths have 64 bits, and size_t here has not"
#endif

#ifdef __cplusplus
extern "C" {
#endif

/* ---- ramps: kind, positions, channels, codes */

uint32_t colorgrad_check(uint32_t kind, const float *positions, size_t positions_length, const float *channels,
                         size_t channels_length, const uint8_t *codes, size_t codes_length);

/* ends: min, max */
uint32_t colorgrad_domain_told(uint32_t kind, const float *positions, size_t positions_length, const float *channels,
                               size_t channels_length, const uint8_t *codes, size_t codes_length, float *ends,
                               size_t ends_length);

/* colour: red, green, blue, alpha */
uint32_t colorgrad_at_told(uint32_t kind, const float *positions, size_t positions_length, const float *channels,
                           size_t channels_length, const uint8_t *codes, size_t codes_length, float t, float *colour,
                           size_t colour_length);

uint32_t colorgrad_paint(uint32_t kind, const float *positions, size_t positions_length, const float *channels,
                         size_t channels_length, const uint8_t *codes, size_t codes_length, const float *ts,
                         size_t ts_length, float *out, size_t out_length);

/* told: stops */
uint32_t colorgrad_sharp_told(const float *colours, size_t colours_length, float min, float max, float softness,
                              float *positions, size_t positions_length, float *channels, size_t channels_length,
                              size_t *told, size_t told_length);

/* ---- GIMP gradient files */

/* told: line, segments; a refusal too has its line */
uint32_t colorgrad_read_told(const uint8_t *text, size_t text_length, float foreground_r, float foreground_g,
                             float foreground_b, float foreground_a, float background_r, float background_g,
                             float background_b, float background_a, float *positions, size_t positions_length,
                             float *channels, size_t channels_length, uint8_t *codes, size_t codes_length, size_t *told,
                             size_t told_length);

/* told: line, segments; a refusal too has its line */
uint32_t colorgrad_read_saved_told(const uint8_t *text, size_t text_length, float foreground_r, float foreground_g,
                                   float foreground_b, float foreground_a, float background_r, float background_g,
                                   float background_b, float background_a, float *positions, size_t positions_length,
                                   float *channels, size_t channels_length, uint8_t *codes, size_t codes_length,
                                   size_t *told, size_t told_length);

/* each answers the name's length */
size_t colorgrad_name(const uint8_t *text, size_t text_length, uint8_t *out, size_t out_length);

size_t colorgrad_name_saved(const uint8_t *text, size_t text_length, uint8_t *out, size_t out_length);

/* told: bytes */
uint32_t colorgrad_write_ggr_told(const float *positions, size_t positions_length, const float *channels,
                                  size_t channels_length, uint8_t *text, size_t text_length, size_t *told,
                                  size_t told_length);

/* answers the text's length */
size_t colorgrad_numeral(float x, uint8_t *out, size_t out_length);

/* ---- records: rows, counts, marks; lists: places, colours */

/* told: evaluations */
uint32_t colorgrad_sample_told(uint32_t kind, const float *positions, size_t positions_length, const float *channels,
                               size_t channels_length, const uint8_t *codes, size_t codes_length, float threshold,
                               float *rows, size_t rows_length, uint8_t *counts, size_t counts_length, uint32_t *marks,
                               size_t marks_length, size_t *told, size_t told_length);

/* told: stops, evaluations */
uint32_t colorgrad_thin_told(uint32_t kind, const float *positions, size_t positions_length, const float *channels,
                             size_t channels_length, const uint8_t *codes, size_t codes_length, float threshold,
                             const float *rows, size_t rows_length, const uint8_t *counts, size_t counts_length,
                             const uint32_t *marks, size_t marks_length, float *places, size_t places_length,
                             float *colours, size_t colours_length, size_t *told, size_t told_length);

/* told: stops, evaluations */
uint32_t colorgrad_flatten_told(uint32_t kind, const float *positions, size_t positions_length, const float *channels,
                                size_t channels_length, const uint8_t *codes, size_t codes_length, float threshold,
                                float *rows, size_t rows_length, uint8_t *counts, size_t counts_length,
                                uint32_t *marks, size_t marks_length, float *places, size_t places_length,
                                float *colours, size_t colours_length, size_t *told, size_t told_length);

/* lists that keep their word; told: stops, evaluations */
uint32_t colorgrad_thin_within_told(uint32_t kind, const float *positions, size_t positions_length,
                                    const float *channels, size_t channels_length, const uint8_t *codes,
                                    size_t codes_length, float threshold, float hold, const float *rows,
                                    size_t rows_length, const uint8_t *counts, size_t counts_length,
                                    const uint32_t *marks, size_t marks_length, float *places, size_t places_length,
                                    float *colours, size_t colours_length, size_t *told, size_t told_length);

/* told: stops, evaluations */
uint32_t colorgrad_flatten_within_told(uint32_t kind, const float *positions, size_t positions_length,
                                       const float *channels, size_t channels_length, const uint8_t *codes,
                                       size_t codes_length, float threshold, float hold, float *rows,
                                       size_t rows_length, uint8_t *counts, size_t counts_length, uint32_t *marks,
                                       size_t marks_length, float *places, size_t places_length, float *colours,
                                       size_t colours_length, size_t *told, size_t told_length);

/* told: 1 where there is a stop, else 0; evaluations; the state, row and index to go on from, also where it is refused;
 * stop: position, red, green, blue, alpha */
uint32_t colorgrad_next_stop_told(uint32_t kind, const float *positions, size_t positions_length,
                                  const float *channels, size_t channels_length, const uint8_t *codes,
                                  size_t codes_length, float threshold, const float *rows, size_t rows_length,
                                  const uint8_t *counts, size_t counts_length, const uint32_t *marks,
                                  size_t marks_length, uint32_t state, uint32_t row, uint32_t index, size_t *told,
                                  size_t told_length, float *stop, size_t stop_length);

/* told: verdict, stop, row, index; t: where the point lies */
uint32_t colorgrad_judge_told(uint32_t kind, const float *positions, size_t positions_length, const float *channels,
                              size_t channels_length, const uint8_t *codes, size_t codes_length, float threshold,
                              const float *places, size_t places_length, const float *colours, size_t colours_length,
                              size_t *told, size_t told_length, float *t, size_t t_length);

/* faults: a byte for each depth; told: how many moved, are close, are merged, and the first merged one */
uint32_t colorgrad_apart_told(uint32_t kind, const float *positions, size_t positions_length, const float *channels,
                              size_t channels_length, const uint8_t *codes, size_t codes_length, float threshold,
                              float step, const float *depths, size_t depths_length, const float *places,
                              size_t places_length, const float *colours, size_t colours_length, uint8_t *faults,
                              size_t faults_length, size_t *told, size_t told_length);

/* ---- edits: sort, stop, position, red, green, blue, alpha */

/* told: evaluations */
uint32_t colorgrad_edit_told(uint32_t kind, const float *positions, size_t positions_length, const float *channels,
                             size_t channels_length, const uint8_t *codes, size_t codes_length, uint32_t sort,
                             size_t stop, float position, float r, float g, float b, float a, float threshold,
                             float *rows, size_t rows_length, uint8_t *counts, size_t counts_length, uint32_t *marks,
                             size_t marks_length, size_t *told, size_t told_length);

/* told: stops, evaluations */
uint32_t colorgrad_edit_list_told(uint32_t kind, const float *positions, size_t positions_length,
                                  const float *channels, size_t channels_length, const uint8_t *codes,
                                  size_t codes_length, uint32_t sort, size_t stop, float position, float r, float g,
                                  float b, float a, float threshold, float *rows, size_t rows_length, uint8_t *counts,
                                  size_t counts_length, uint32_t *marks, size_t marks_length, float *places,
                                  size_t places_length, float *colours, size_t colours_length, size_t *told,
                                  size_t told_length);

/* ---- sheets: a ramp with room, of which the first `stops` stops count (of a GIMP ramp segments), its record and its list;
 * list_sort 0 is the list that thinning makes, any other number the one that keeps its word within the hold */

/* told: stops of the ramp, also where it is refused; stops of the list; evaluations */
uint32_t colorgrad_sheet_open_told(uint32_t kind, const float *positions, size_t positions_length,
                                   const float *channels, size_t channels_length, const uint8_t *codes,
                                   size_t codes_length, size_t stops, float threshold, uint32_t list_sort, float hold,
                                   float *rows, size_t rows_length, uint8_t *counts, size_t counts_length,
                                   uint32_t *marks, size_t marks_length, float *places, size_t places_length,
                                   float *colours, size_t colours_length, size_t *told, size_t told_length);

/* told: stops of the ramp as it is now, also where it is refused; stops of the list; evaluations */
uint32_t colorgrad_sheet_edit_told(uint32_t kind, float *positions, size_t positions_length, float *channels,
                                   size_t channels_length, const uint8_t *codes, size_t codes_length, size_t stops,
                                   uint32_t sort, size_t stop, float position, float r, float g, float b, float a,
                                   float threshold, uint32_t list_sort, float hold, float *rows, size_t rows_length,
                                   uint8_t *counts, size_t counts_length, uint32_t *marks, size_t marks_length,
                                   float *places, size_t places_length, float *colours, size_t colours_length,
                                   size_t *told, size_t told_length);

/* ---- the tool, and the leaves below it */

/* answers how many bytes are printed */
size_t colorgrad_desk(const uint8_t *input, size_t input_length, uint8_t *output, size_t output_length);

float colorgrad_threshold(float asked);
float colorgrad_hold(float asked, float threshold);
float colorgrad_root(float x);
float colorgrad_cutoff(float t);

/* answers 1 where the bytes are a number, else 0; value: the number, 0 if none */
uint32_t colorgrad_token_told(const uint8_t *text, size_t text_length, float *value, size_t value_length);
uint32_t colorgrad_long_token_told(const uint8_t *text, size_t text_length, float *value, size_t value_length);

/* ---- messages and the version */

/* Both answer the text's length, and write its bytes to the start of out where out holds them all; else out stays. */
size_t colorgrad_message_told(uint32_t refusal, uint8_t *out, size_t out_length);
size_t colorgrad_verdict_message_told(uint32_t verdict, uint8_t *out, size_t out_length);

/* 1000 * (1000 * major + minor) + patch */
uint32_t colorgrad_version(void);

#ifdef __cplusplus
}
#endif

#endif
