/* Faults put round calls of the library, one for each number, to see that the fuzzed calls find them: `compare/fuzz/run faults`.
 * 1 reading leaves an output as it was, 2 the tool leaves a short output, 3 a row has something after its count, 4 a refresh
 * takes every cell for clear, 5 reading writes one byte past an output, 6 a list that keeps its word is the published one, 7 a
 * merged depth is told as kept, 8 a sheet's edit is not made in its ramp. */
#include "colorgrad.h"
#include <stdlib.h>
#include <string.h>

#define RAMP \
    uint32_t kind, const float *positions, size_t positions_length, const float *channels, size_t channels_length, \
        const uint8_t *codes, size_t codes_length
#define RECORD \
    float *rows, size_t rows_length, uint8_t *counts, size_t counts_length, uint32_t *marks, size_t marks_length
#define STOPS float *places, size_t places_length, float *colours, size_t colours_length
#define LENT kind, positions, positions_length, channels, channels_length, codes, codes_length

#if FAULT == 1 || FAULT == 5
static ColorgradRead faulty_read(const uint8_t *text, size_t text_length, ColorgradRgba foreground,
                                 ColorgradRgba background, float *positions, size_t positions_length, float *channels,
                                 size_t channels_length, uint8_t *codes, size_t codes_length)
{
    ColorgradRead made = colorgrad_read(text, text_length, foreground, background, positions, positions_length,
                                        channels, channels_length, codes, codes_length);
    if (FAULT == 1 && made.refusal != 0)
        memset(channels, 0xa5, channels_length * sizeof(float));
    if (FAULT == 5)
        codes[codes_length] = 0;
    return made;
}
#define colorgrad_read faulty_read
#elif FAULT == 2
static size_t faulty_desk(const uint8_t *input, size_t input_length, uint8_t *output, size_t output_length)
{
    size_t printed = colorgrad_desk(input, input_length, output, output_length);
    if (printed > output_length)
        memset(output, 0xa5, output_length);
    return printed;
}
#define colorgrad_desk faulty_desk
#elif FAULT == 3
static ColorgradListed faulty_flatten(RAMP, float threshold, RECORD, STOPS)
{
    ColorgradListed made = colorgrad_flatten(LENT, threshold, rows, rows_length, counts, counts_length, marks,
                                             marks_length, places, places_length, colours, colours_length);
    if (made.refusal == 0 && counts[35] < 128)
        rows[35 * 128 + counts[35]] = 7.5f;
    return made;
}
#define colorgrad_flatten faulty_flatten
#elif FAULT == 6
static ColorgradListed faulty_flatten_within(RAMP, float threshold, float hold, RECORD, STOPS)
{
    (void)hold;
    return colorgrad_flatten(LENT, threshold, rows, rows_length, counts, counts_length, marks, marks_length, places,
                             places_length, colours, colours_length);
}
#define colorgrad_flatten_within faulty_flatten_within
#elif FAULT == 7
static ColorgradApart faulty_apart(RAMP, float threshold, float step, const float *depths, size_t depths_length,
                                   const float *places, size_t places_length, const float *colours,
                                   size_t colours_length, uint8_t *faults, size_t faults_length)
{
    ColorgradApart told = colorgrad_apart(LENT, threshold, step, depths, depths_length, places, places_length, colours,
                                          colours_length, faults, faults_length);
    for (size_t i = 0; told.refusal == 0 && i < depths_length; i++)
        faults[i] &= (uint8_t)~COLORGRAD_MERGED;
    if (told.refusal == 0) {
        told.merged = 0;
        told.first_merged = depths_length;
    }
    return told;
}
#define colorgrad_apart faulty_apart
#elif FAULT == 8
static uint32_t faulty_sheet_edit(uint32_t kind, float *positions, size_t positions_length, float *channels,
                                  size_t channels_length, const uint8_t *codes, size_t codes_length, size_t stops,
                                  uint32_t sort, size_t stop, float position, float r, float g, float b, float a,
                                  float threshold, uint32_t list_sort, float hold, RECORD, STOPS, size_t *told,
                                  size_t told_length)
{
    float *was = malloc(channels_length * sizeof(float));
    memcpy(was, channels, channels_length * sizeof(float));
    uint32_t refusal = colorgrad_sheet_edit_told(LENT, stops, sort, stop, position, r, g, b, a, threshold, list_sort,
                                                 hold, rows, rows_length, counts, counts_length, marks, marks_length,
                                                 places, places_length, colours, colours_length, told, told_length);
    if (sort == COLORGRAD_EDIT_COLOUR)
        memcpy(channels, was, channels_length * sizeof(float));
    free(was);
    return refusal;
}
#define colorgrad_sheet_edit_told faulty_sheet_edit
#elif FAULT == 4
/* The record as it was. */
static float *kept(const float *rows, size_t rows_length, const uint8_t *counts, size_t counts_length)
{
    float *was = malloc(rows_length * sizeof(float) + counts_length);
    memcpy(was, rows, rows_length * sizeof(float));
    memcpy(was + rows_length, counts, counts_length);
    return was;
}
static void put_back(float *was, float *rows, size_t rows_length, uint8_t *counts, size_t counts_length)
{
    memcpy(rows, was, rows_length * sizeof(float));
    memcpy(counts, was + rows_length, counts_length);
    free(was);
}
static ColorgradSampled faulty_refresh(RAMP, size_t stop, ColorgradRgba colour, float threshold, RECORD)
{
    float *was = kept(rows, rows_length, counts, counts_length);
    ColorgradSampled made =
        colorgrad_refresh(LENT, stop, colour, threshold, rows, rows_length, counts, counts_length, marks, marks_length);
    put_back(was, rows, rows_length, counts, counts_length);
    return made;
}
static ColorgradListed faulty_refresh_list(RAMP, size_t stop, ColorgradRgba colour, float threshold, RECORD, STOPS)
{
    float *was = kept(rows, rows_length, counts, counts_length);
    ColorgradListed made = colorgrad_refresh_list(LENT, stop, colour, threshold, rows, rows_length, counts, counts_length,
                                                  marks, marks_length, places, places_length, colours, colours_length);
    put_back(was, rows, rows_length, counts, counts_length);
    return made;
}
#define colorgrad_refresh faulty_refresh
#define colorgrad_refresh_list faulty_refresh_list
#endif
