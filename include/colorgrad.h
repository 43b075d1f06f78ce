/* Guineaplume: colour ramps checked, evaluated, flattened to lists of stops, and refreshed after an edit.
 *
 * C99, and usable from C++. Link libcolorgrad_c.a, out of the folder that `./library` prints; it needs no other library. It
 * has no state and takes nothing from the heap: any threads may call it at once.
 *
 * A slice is a pointer and how many items it has. No call needs a check before it: with length 0 the pointer may be null,
 * lengths may disagree, numbers may be anything; what cannot be used is refused with a number below. The one thing to keep
 * to is C's own: each pointer is to as many items as its length says, and a slice that a call writes overlaps no other.
 *
 *     static ColorgradRecordRoom record;
 *     static ColorgradListRoom list;
 *     ColorgradRamp ramp = colorgrad_ramp(COLORGRAD_LINEAR, colorgrad_stops(positions, channels, 4));
 *     ColorgradListed made = colorgrad_ramp_flatten(ramp, COLORGRAD_THRESHOLD, colorgrad_record(&record), colorgrad_list(&list));
 *     if (made.refusal != COLORGRAD_FINE)
 *         puts(colorgrad_message(made.refusal));
 *
 * Stack: some 120 KB for colorgrad_desk, 85 KB for lists that keep their word, 70 KB to edit, 45 KB to judge, 26 KB to
 * sample, flatten or paint, and below 13 KB for every other call. These were read off the compiled code for x86-64, and are not proved (docs/SPEED.md).
 *
 * The calls stand in three headers. This one has those over structs, which are for programs. colorgrad_long.h has the same
 * with each argument by itself, as version 0.1.0 had them, and colorgrad_calls.h those of the library, for bindings. */
#ifndef COLORGRAD_H
#define COLORGRAD_H

#include "colorgrad_calls.h"
#include <stdbool.h>
#include <stddef.h>
#include <stdint.h>
#include <string.h>

#ifdef __cplusplus
extern "C" {
#endif

/* ---- the version of this header; colorgrad_version() answers that of the library */
#define COLORGRAD_VERSION_MAJOR 0u
#define COLORGRAD_VERSION_MINOR 2u
#define COLORGRAD_VERSION_PATCH 0u
#define COLORGRAD_VERSION (1000u * (1000u * COLORGRAD_VERSION_MAJOR + COLORGRAD_VERSION_MINOR) + COLORGRAD_VERSION_PATCH)
#define COLORGRAD_VERSION_TEXT "0.2.0"

/* ---- kinds of ramp; any other number is refused with 1. COLORGRAD_GIMP_SAVED takes every segment that COLORGRAD_GIMP takes, with
 * the same colours, and curved ones (blending 1) too */
typedef enum {
    COLORGRAD_LINEAR = 0,
    COLORGRAD_SMOOTHSTEP = 1,
    COLORGRAD_SHARP = 2,
    COLORGRAD_BASIS = 3,
    COLORGRAD_CATMULL_ROM = 4,
    COLORGRAD_GIMP = 5,
    COLORGRAD_GIMP_SAVED = 6
} ColorgradKind;

/* ---- sorts of edit; any other number is refused with 6 */
typedef enum {
    COLORGRAD_EDIT_COLOUR = 0, /* stop gets the colour */
    COLORGRAD_EDIT_MOVE = 1,   /* stop gets the position */
    COLORGRAD_EDIT_ADD = 2,    /* a stop more, with the position and the colour; stop is the index that it gets */
    COLORGRAD_EDIT_REMOVE = 3  /* stop goes */
} ColorgradSort;

/* ---- sorts of list of a sheet; any other number is the latter */
typedef enum {
    COLORGRAD_LIST_THINNED = 0, /* as colorgrad_ramp_flatten makes it; the hold is not read */
    COLORGRAD_LIST_WITHIN = 1   /* as colorgrad_ramp_flatten_within makes it: one that keeps its word within the hold */
} ColorgradListSort;

/* ---- verdicts on a list; ColorgradJudged has them as a number, which may be cast to this */
typedef enum {
    COLORGRAD_NOT_JUDGED = 0, /* the ramp is refused */
    COLORGRAD_YES = 1,
    COLORGRAD_WRONG_LENGTH = 2,
    COLORGRAD_BAD_STOP = 3, /* the stop, counted from 0 */
    COLORGRAD_WRONG_FIRST = 4,
    COLORGRAD_WRONG_LAST = 5,
    COLORGRAD_TOO_FAR = 6 /* the point: its row and its index there, counted from 0, and its t; max is row 36, index 0 */
} ColorgradVerdict;

/* ---- faults: what a byte of colorgrad_ramp_apart says of its depth, added up */
#define COLORGRAD_MOVED 1u  /* the list's colour is too far from the ramp's */
#define COLORGRAD_CLOSE 2u  /* the ramp itself does not tell it from the depth before: no fault of the list */
#define COLORGRAD_MERGED 4u /* the ramp tells it from the depth before, and the list does not */

/* ---- codes of a GIMP segment that are carried: six of blending, three of colouring. A curved segment is carried by ramps of kind
 * COLORGRAD_GIMP_SAVED alone. The middle of a sinusoidal or curved segment must not be outside its ends, or the segment counts as
 * not carried. With HSV the colours are mixed as hue, saturation and
 * value, by docs/HSV.md: hues rise, or fall, from the left one to the right one, and equal hues go the full turn. */
#define COLORGRAD_BLEND_LINEAR 0u
#define COLORGRAD_BLEND_CURVED 1u
#define COLORGRAD_BLEND_SINUSOIDAL 2u
#define COLORGRAD_BLEND_SPHERICAL_INCREASING 3u
#define COLORGRAD_BLEND_SPHERICAL_DECREASING 4u
#define COLORGRAD_BLEND_STEP 5u
#define COLORGRAD_COLOURING_RGB 0u
#define COLORGRAD_COLOURING_HSV_COUNTER_CLOCKWISE 1u /* hues rise */
#define COLORGRAD_COLOURING_HSV_CLOCKWISE 2u         /* hues fall */

/* ---- limits */
#define COLORGRAD_MOST_STOPS 2048u     /* of a ramp */
#define COLORGRAD_MOST_SEGMENTS 256u   /* of a GIMP ramp */
#define COLORGRAD_MOST_COLOURS 256u    /* of a sharp ramp to build, which gets two stops for each */
#define COLORGRAD_CELLS 36u            /* counts of a record */
#define COLORGRAD_ROW 128u             /* numbers of each of its rows */
#define COLORGRAD_ROWS 4608u           /* numbers of all its rows */
#define COLORGRAD_MARKS 3u             /* words of a record */
#define COLORGRAD_MOST_POINTS 4609u    /* stops of any list: with this room, thinning never gives 7 */
#define COLORGRAD_MOST_EVALUATIONS 32146u /* of a flattening */
#define COLORGRAD_MOST_WEIGHED 10755u  /* evaluations of a list that keeps its word; a sampling's come on top */
#define COLORGRAD_MOST_TEXT 65536u     /* bytes of a GIMP text */
#define COLORGRAD_MOST_INPUT 16384u    /* bytes of an input of the tool */
#define COLORGRAD_MOST_PRINTED 50029u  /* bytes that the tool prints */
#define COLORGRAD_MOST_DIGITS 18u      /* of a token */
#define COLORGRAD_MOST_WRITTEN 257u    /* stops of a list that is written as a GIMP text */
#define COLORGRAD_MOST_NUMERAL 18u     /* bytes of a number that is written */

/* ---- thresholds: not finite becomes the default, any other is taken into the range */
#define COLORGRAD_THRESHOLD 0.007f
#define COLORGRAD_LEAST_THRESHOLD 0.001f
#define COLORGRAD_GREATEST_THRESHOLD 0.035f

/* ---- holds: not finite becomes the default, which is the least; any other is taken into that .. the threshold in force */
#define COLORGRAD_HOLD 0.001f

/* ---- refusals; 0 is none. The first that holds is given: 1; then stop by stop 2, 3; then 4, 5, 20, 6; then, of a stop
 * added or moved, 1 and 3. Of depths: 1 to 4, then 22, 23, 24 and 7. */
#define COLORGRAD_FINE 0u
#define COLORGRAD_MISSHAPEN 1u
#define COLORGRAD_NOT_FINITE 2u
#define COLORGRAD_FALLING 3u
#define COLORGRAD_FAR_DOMAIN 4u
#define COLORGRAD_BAD_RECORD 5u
#define COLORGRAD_BAD_EDIT 6u
#define COLORGRAD_NO_ROOM 7u
#define COLORGRAD_LIST_NOT_FINITE 8u
#define COLORGRAD_LIST_FALLING 9u
#define COLORGRAD_NOT_A_TEXT 10u
#define COLORGRAD_BAD_HEADER 11u
#define COLORGRAD_BAD_SEGMENT 12u
#define COLORGRAD_FEW_LINES 13u
#define COLORGRAD_NO_SEGMENT 14u
#define COLORGRAD_TOO_MANY_SEGMENTS 15u
#define COLORGRAD_NOT_CARRIED 16u
#define COLORGRAD_NOT_BUILT 17u
#define COLORGRAD_TORN 18u
#define COLORGRAD_UNWRITABLE 19u
#define COLORGRAD_OTHER_THRESHOLD 20u
#define COLORGRAD_NOT_SHOWN 21u
#define COLORGRAD_BAD_LIST 22u
#define COLORGRAD_BAD_DEPTHS 23u
#define COLORGRAD_BAD_STEP 24u

/* What a refusal means, in one line of plain words; never null. colorgrad_message_told has the same texts. */
static inline const char *colorgrad_message(uint32_t refusal)
{
    switch (refusal) {
    case COLORGRAD_FINE: return "not refused";
    case COLORGRAD_MISSHAPEN: return "too few or too many stops or segments, an unknown kind, or lengths that disagree";
    case COLORGRAD_NOT_FINITE: return "a position or a channel is not a finite number";
    case COLORGRAD_FALLING: return "a stop's position is below that of the stop before it";
    case COLORGRAD_FAR_DOMAIN: return "the domain reaches beyond 1e38";
    case COLORGRAD_BAD_RECORD: return "the record is not 4,608 numbers, 36 counts of 1 to 128 and 3 words, or a place lies outside it";
    case COLORGRAD_BAD_EDIT: return "the edit names no stop that it can be made of, has a number that is not finite, or the ramp is of a kind that cannot be edited so";
    case COLORGRAD_NO_ROOM: return "the output has no room for all of it";
    case COLORGRAD_LIST_NOT_FINITE: return "a stop of the list would not be finite";
    case COLORGRAD_LIST_FALLING: return "a stop of the list would lie below the stop before it";
    case COLORGRAD_NOT_A_TEXT: return "the GIMP text is too long, or not ASCII where it must be, or its name is not UTF-8";
    case COLORGRAD_BAD_HEADER: return "line 1, 2 or 3 of the GIMP text is not as it must be";
    case COLORGRAD_BAD_SEGMENT: return "a segment of the GIMP text is not valid";
    case COLORGRAD_FEW_LINES: return "the GIMP text has fewer segments than it counts";
    case COLORGRAD_NO_SEGMENT: return "the GIMP text has no segment";
    case COLORGRAD_TOO_MANY_SEGMENTS: return "the GIMP text counts more segments than there is room for";
    case COLORGRAD_NOT_CARRIED: return "a segment is curved, which this call does not take, or curved or sinusoidal with its middle outside its ends";
    case COLORGRAD_NOT_BUILT: return "no sharp ramp can be built of so many colours on this domain";
    case COLORGRAD_TORN: return "the segments of the GIMP text do not run from 0 to 1, each joined to the next";
    case COLORGRAD_UNWRITABLE: return "a number of the list cannot be written, or it does not run from 0 to 1";
    case COLORGRAD_OTHER_THRESHOLD: return "the record was sampled with another threshold or on another domain";
    case COLORGRAD_NOT_SHOWN: return "two stops that follow each other do not show what lies between them: colours beyond 16,384";
    case COLORGRAD_BAD_LIST: return "the list is not 2 to 4,609 stops, finite and never falling, from where the ramp starts to where it ends";
    case COLORGRAD_BAD_DEPTHS: return "there are no depths, or one is not finite, outside the domain of the ramp, or below the depth before it";
    case COLORGRAD_BAD_STEP: return "the step is not finite or is below 0";
    default: return "no such refusal";
    }
}

/* What a verdict means, in one line of plain words; never null. colorgrad_verdict_message_told has the same texts. */
static inline const char *colorgrad_verdict_message(uint32_t verdict)
{
    switch (verdict) {
    case COLORGRAD_NOT_JUDGED: return "the ramp is refused, and the list was not looked at";
    case COLORGRAD_YES: return "the list shows the ramp within the threshold";
    case COLORGRAD_WRONG_LENGTH: return "the list is not 2 to 4,609 stops of a position and four channels each";
    case COLORGRAD_BAD_STOP: return "a stop of the list is not finite, or its position is below that of the stop before it";
    case COLORGRAD_WRONG_FIRST: return "the list does not start where the ramp does";
    case COLORGRAD_WRONG_LAST: return "the list does not end where the ramp does";
    case COLORGRAD_TOO_FAR: return "the list's colour is too far from the ramp's";
    default: return "no such verdict";
    }
}

/* ---- what is lent to a call: pointers with lengths, which the caller fills. A copy of such a struct copies no numbers. */

typedef struct {
    float r, g, b, a;
} ColorgradRgba;

/* Stops to read: n positions, and 4n channels (red, green, blue, alpha of each stop). */
typedef struct {
    const float *positions;
    size_t positions_length;
    const float *channels;
    size_t channels_length;
} ColorgradStops;

/* A ramp. Stops, every kind but GIMP: n positions, 4n channels, no codes. GIMP segments: 3n positions (left, middle, right),
 * 8n channels (left, then right), 2n codes (blending, colouring). It is never written. */
typedef struct {
    ColorgradKind kind;
    const float *positions;
    size_t positions_length;
    const float *channels;
    size_t channels_length;
    const uint8_t *codes;
    size_t codes_length;
} ColorgradRamp;

/* Where the segments of a GIMP text go. */
typedef struct {
    float *positions;
    size_t positions_length;
    float *channels;
    size_t channels_length;
    uint8_t *codes;
    size_t codes_length;
} ColorgradSegments;

/* A record: COLORGRAD_ROWS numbers, COLORGRAD_CELLS counts, COLORGRAD_MARKS words. */
typedef struct {
    float *rows;
    size_t rows_length;
    uint8_t *counts;
    size_t counts_length;
    uint32_t *marks;
    size_t marks_length;
} ColorgradRecord;

/* Where the stops of a list go: places and, four channels each, colours. */
typedef struct {
    float *places;
    size_t places_length;
    float *colours;
    size_t colours_length;
} ColorgradList;

/* Depths to ask about, and where a byte for each goes. */
typedef struct {
    const float *depths;
    size_t depths_length;
    uint8_t *faults;
    size_t faults_length;
} ColorgradDepths;

/* An edit, of a sort: what the sort does not name is not read. colorgrad_recolour, .._move, .._add, .._remove make one. */
typedef struct {
    ColorgradSort sort;
    size_t stop;
    float position;
    ColorgradRgba colour;
} ColorgradEdit;

/* Memory for a record, 18,480 bytes, and for any list there is, 92,180. */
typedef struct {
    float rows[COLORGRAD_ROWS];
    uint8_t counts[COLORGRAD_CELLS];
    uint32_t marks[COLORGRAD_MARKS];
} ColorgradRecordRoom;

typedef struct {
    float places[COLORGRAD_MOST_POINTS];
    float colours[4 * COLORGRAD_MOST_POINTS];
} ColorgradListRoom;

/* A sheet: a ramp, its record and its list, 152 KB in all, which colorgrad_sheet_open fills and colorgrad_sheet_edit alone
 * changes. */
typedef struct {
    ColorgradKind kind;
    float threshold;
    ColorgradListSort list_sort;
    float hold;
    size_t stops;          /* of the ramp, of a GIMP ramp its segments; 0 where none was opened */
    size_t listed;         /* stops of the list, 0 where it is refused */
    uint32_t list_refusal; /* of the list: 0, 7, 8, 9 or 21 */
    float positions[COLORGRAD_MOST_STOPS];
    float channels[4 * COLORGRAD_MOST_STOPS];
    uint8_t codes[2 * COLORGRAD_MOST_SEGMENTS];
    ColorgradRecordRoom record;
    ColorgradListRoom list;
} ColorgradSheet;

static inline ColorgradStops colorgrad_stops(const float *positions, const float *channels, size_t stops)
{
    ColorgradStops made = {positions, stops, channels, 4 * stops};
    return made;
}

static inline ColorgradRamp colorgrad_ramp(ColorgradKind kind, ColorgradStops stops)
{
    ColorgradRamp made = {kind, stops.positions, stops.positions_length, stops.channels, stops.channels_length, NULL, 0};
    return made;
}

static inline ColorgradRecord colorgrad_record(ColorgradRecordRoom *room)
{
    ColorgradRecord made = {room->rows, COLORGRAD_ROWS, room->counts, COLORGRAD_CELLS, room->marks, COLORGRAD_MARKS};
    return made;
}

static inline ColorgradList colorgrad_list(ColorgradListRoom *room)
{
    ColorgradList made = {room->places, COLORGRAD_MOST_POINTS, room->colours, 4 * COLORGRAD_MOST_POINTS};
    return made;
}

static inline ColorgradDepths colorgrad_depths(const float *depths, uint8_t *faults, size_t n)
{
    ColorgradDepths made = {depths, n, faults, n};
    return made;
}

/* The first stops of a list: those that a call wrote. */
static inline ColorgradStops colorgrad_list_stops(ColorgradList list, size_t stops)
{
    bool is_room = stops <= list.places_length && stops <= list.colours_length / 4;
    return colorgrad_stops(list.places, list.colours, is_room ? stops : 0);
}

/* The ramp of the first segments: those that a call read. The kind says whether they may be curved. */
static inline ColorgradRamp colorgrad_segments_of_kind(ColorgradKind kind, ColorgradSegments room, size_t segments)
{
    bool is_room = segments <= room.positions_length / 3 && segments <= room.channels_length / 8 &&
                   segments <= room.codes_length / 2;
    size_t n = is_room ? segments : 0;
    ColorgradRamp made = {kind, room.positions, 3 * n, room.channels, 8 * n, room.codes, 2 * n};
    return made;
}

static inline ColorgradRamp colorgrad_segments_ramp(ColorgradSegments room, size_t segments)
{
    return colorgrad_segments_of_kind(COLORGRAD_GIMP, room, segments);
}

static inline ColorgradRamp colorgrad_saved_ramp(ColorgradSegments room, size_t segments)
{
    return colorgrad_segments_of_kind(COLORGRAD_GIMP_SAVED, room, segments);
}

/* ---- what a call answers: the refusal, or 0 and what is named here; what is not answered is 0 */

typedef struct {
    uint32_t refusal;
    float min, max; /* the ends of the domain: 0 and 1 for GIMP segments */
} ColorgradDomain;

typedef struct {
    uint32_t refusal;
    ColorgradRgba colour;
} ColorgradColour;

typedef struct {
    uint32_t refusal;
    size_t stops; /* how many were written */
} ColorgradSharp;

typedef struct {
    uint32_t refusal;
    size_t line;     /* of the refusal, 0 if none */
    size_t segments; /* how many were read */
} ColorgradRead;

typedef struct {
    uint32_t refusal;
    size_t bytes; /* how many were written */
} ColorgradWritten;

typedef struct {
    uint32_t refusal;
    size_t evaluations; /* how often the definition asks for a colour */
} ColorgradSampled;

typedef struct {
    uint32_t refusal;
    size_t stops; /* how many were written */
    size_t evaluations;
} ColorgradListed;

/* Of a sheet. With 7, 8, 9 or 21 the list alone is refused; with any other refusal nothing is changed. */
typedef struct {
    uint32_t refusal;
    size_t stops;  /* of the ramp as it is now, also where the call is refused */
    size_t listed; /* stops of the list */
    size_t evaluations;
} ColorgradSheetAnswer;

/* Where a caller is in a list: all that it keeps between two steps. A place that is all 0 is the start. Row and index count
 * after a stop alone; any state above 1 is the end. */
#define COLORGRAD_START 0u
#define COLORGRAD_AFTER 1u
#define COLORGRAD_ENDED 2u

typedef struct {
    uint32_t state;
    uint32_t row;
    uint32_t index;
} ColorgradPlace;

/* With neither a refusal nor a stop nothing more comes. */
typedef struct {
    uint32_t refusal;
    bool has_stop;
    float position; /* of the stop, and its colour */
    ColorgradRgba colour;
    size_t evaluations;   /* of this step */
    ColorgradPlace place; /* to go on from; a refusal too has it */
} ColorgradHanded;

typedef struct {
    uint32_t refusal;
    uint32_t verdict; /* a ColorgradVerdict, and the stop or the point that it names */
    size_t stop;
    size_t row;
    size_t index;
    float t;
} ColorgradJudged;

typedef struct {
    uint32_t refusal;
    size_t moved, close, merged; /* how many depths have each fault */
    size_t first_merged;         /* counted from 0; the number of depths where none is */
} ColorgradApart;

typedef struct {
    bool is_number;
    float value;
} ColorgradToken;

#ifdef __cplusplus
}
#endif

#include "colorgrad_long.h"

#ifdef __cplusplus
extern "C" {
#endif

/* the arguments of a long call that stand for a struct */
#define COLORGRAD_OF_STOPS(x) (x).positions, (x).positions_length, (x).channels, (x).channels_length
#define COLORGRAD_OF_SEGMENTS(x) COLORGRAD_OF_STOPS(x), (x).codes, (x).codes_length
#define COLORGRAD_OF_RAMP(x) (uint32_t)(x).kind, COLORGRAD_OF_SEGMENTS(x)
#define COLORGRAD_OF_RECORD(x) (x).rows, (x).rows_length, (x).counts, (x).counts_length, (x).marks, (x).marks_length
#define COLORGRAD_OF_LIST(x) (x).places, (x).places_length, (x).colours, (x).colours_length
#define COLORGRAD_OF_DEPTHS(x) (x).depths, (x).depths_length
#define COLORGRAD_OF_FAULTS(x) (x).faults, (x).faults_length
#define COLORGRAD_OF_EDIT(x) (uint32_t)(x).sort, (x).stop, (x).position, (x).colour
#define COLORGRAD_OF_SHEET(x)                                                                                               \
    (x)->record.rows, COLORGRAD_ROWS, (x)->record.counts, COLORGRAD_CELLS, (x)->record.marks, COLORGRAD_MARKS,              \
        (x)->list.places, COLORGRAD_MOST_POINTS, (x)->list.colours, 4 * COLORGRAD_MOST_POINTS

/* ---- ramps */

/* 0, or 1, 2 or 3 where no call takes the ramp. */
static inline uint32_t colorgrad_ramp_check(ColorgradRamp ramp)
{
    return colorgrad_check(COLORGRAD_OF_RAMP(ramp));
}

/* Refused with 1, 2, 3. */
static inline ColorgradDomain colorgrad_ramp_domain(ColorgradRamp ramp)
{
    return colorgrad_domain(COLORGRAD_OF_RAMP(ramp));
}

/* The colour at t, for any t. Refused with 1, 2, 3. */
static inline ColorgradColour colorgrad_ramp_at(ColorgradRamp ramp, float t)
{
    return colorgrad_at(COLORGRAD_OF_RAMP(ramp), t);
}

/* Writes the colours at ts, four channels each; what lies past them stays. The ramp is checked once, and not for each
 * point. 0, or 1, 2, 3: out stays as it was; or 7: out is set to zero. */
static inline uint32_t colorgrad_ramp_paint(ColorgradRamp ramp, const float *ts, size_t ts_length, float *out,
                                            size_t out_length)
{
    return colorgrad_paint(COLORGRAD_OF_RAMP(ramp), ts, ts_length, out, out_length);
}

/* Builds a sharp ramp of n colours, four channels each, on min..max: 2n stops; what lies past them stays. Softness is taken
 * into 0..1; not finite, it is 0.1. Refused with 17, 1 (no room, or channels left over) or 2: nothing is changed. */
static inline ColorgradSharp colorgrad_build_sharp(const float *colours, size_t colours_length, float min, float max,
                                                   float softness, ColorgradList stops)
{
    return colorgrad_sharp(colours, colours_length, min, max, softness, COLORGRAD_OF_LIST(stops));
}

/* ---- GIMP gradient files */

/* Reads a file's text; what lies past the last segment stays. The ramp is then colorgrad_segments_ramp. Foreground and
 * background are what a segment may name in place of a colour. Refused with 2 (one of these two is not finite), 10 to 16 or
 * 18: all three outputs are set to zero. A file that is read runs from 0 to 1 without a gap. */
static inline ColorgradRead colorgrad_read_segments(const uint8_t *text, size_t text_length, ColorgradRgba foreground,
                                                    ColorgradRgba background, ColorgradSegments room)
{
    return colorgrad_read(text, text_length, foreground, background, COLORGRAD_OF_SEGMENTS(room));
}

/* The same of a file as GIMP itself saves it: its numbers may be long (17 significant digits, an exponent), its name in UTF-8, and
 * its segments curved. The ramp is then colorgrad_saved_ramp. What colorgrad_read_segments reads is read the same. 131,072 bytes
 * at most; what follows the segments counted is not looked at. */
static inline ColorgradRead colorgrad_read_saved_segments(const uint8_t *text, size_t text_length,
                                                          ColorgradRgba foreground, ColorgradRgba background,
                                                          ColorgradSegments room)
{
    return colorgrad_read_saved(text, text_length, foreground, background, COLORGRAD_OF_SEGMENTS(room));
}

/* colorgrad_name and colorgrad_name_saved (colorgrad_calls.h): how long the file's name is; its bytes are written to the start of
 * out where out holds them all, else out stays as it was. 0 where the file would be refused with room for 256 segments, by
 * colorgrad_read_segments or colorgrad_read_saved_segments. */

/* Bytes that are enough for a list of n stops: with this room, 7 is never given. 0 for fewer than 2 stops, which are refused
 * with 1. n is evaluated twice. */
#define COLORGRAD_WRITTEN_BYTES(n) ((n) < 2 ? (size_t)0 : 34u + 213u * ((size_t)(n) - 1u))

/* Writes a list of stops as a file's text: named `flattened`, linear RGB segments of 13 numbers, the middle half-way, 9
 * significant digits each, and no byte after the text's last LF; what lies past it stays. Reading it gives the segments back,
 * bit for bit. Refused with 1 (fewer than 2 stops, more than COLORGRAD_MOST_WRITTEN, or lengths that disagree) or 3: text
 * stays as it was; with 19 or 7: all of it is set to zero. 19 is for a number other than zero whose magnitude is not from
 * 1e-6 to 1e6 (a half-way point too), and for a list that does not run from 0 to 1. So a list in metres must be taken to
 * 0..1 first. Lists of this library can get 19, since a channel of a smooth ramp may come out as a few units of 1e-8; and
 * one of a basis ramp may be 1.00000012, which is written as it is, and which Inkscape refuses to read. */
static inline ColorgradWritten colorgrad_write_stops(ColorgradStops stops, uint8_t *text, size_t text_length)
{
    return colorgrad_write_ggr(COLORGRAD_OF_STOPS(stops), text, text_length);
}

/* colorgrad_numeral (colorgrad_calls.h): how long a number's text is, as it stands in such a file, 0 where it cannot be
 * written; its bytes are written to the start of out where out holds them all, else out stays as it was. */

/* ---- records and lists
 *
 * A record is what sampling fills: how finely each of 36 cells of the domain has to be cut; and, as its three words, what it
 * was sampled with: the bits of the threshold that colorgrad_threshold gives, of min and of max. A list is made of it by
 * thinning: stops that stand for the ramp when mixed linearly. To thin or refresh with another threshold in force, or a ramp
 * on another domain, is refused with 20. Nothing else ties a record to its ramp: that of another ramp on the same domain,
 * sampled with the same threshold, is taken, and the list is then wrong. */

/* Fills a record, whatever was in it. Refused with 1 to 5: the record stays as it was. */
static inline ColorgradSampled colorgrad_ramp_sample(ColorgradRamp ramp, float threshold, ColorgradRecord record)
{
    return colorgrad_sample(COLORGRAD_OF_RAMP(ramp), threshold, COLORGRAD_OF_RECORD(record));
}

/* Makes the list of a record, which is not written; what lies past the last stop stays. Refused with 1 to 5 or 20: the list
 * stays as it was; with 7, 8 or 9: all of it is set to zero. */
static inline ColorgradListed colorgrad_ramp_thin(ColorgradRamp ramp, float threshold, ColorgradRecord record,
                                                  ColorgradList list)
{
    return colorgrad_thin(COLORGRAD_OF_RAMP(ramp), threshold, COLORGRAD_OF_RECORD(record), COLORGRAD_OF_LIST(list));
}

/* Fills a record and makes its list. Refused with 1 to 5: nothing is changed; with 7, 8 or 9: the record is filled, all of
 * the list is set to zero. An ordinary ramp, a linear one that passes its check, from exactly 0 to exactly 1 with channels
 * within 0 to 1, is never refused where the record has its lengths and the list room for COLORGRAD_MOST_POINTS; the channels
 * listed then lie within 0 to 1 too. Nor is any linear ramp that passes its check, on a domain within 1e38, with channels
 * below 2^127 in size, nor a smoothstep or sharp one with channels up to a sixth of FLT_MAX.
 *
 * A band of colour that is narrower than half a cell, a 72nd of the domain, can lie between the points that are looked at:
 * the list does not show it, whatever the threshold (README, 'What a list can lose'). Lists that keep their word, below, do;
 * colorgrad_ramp_apart tells of any list. */
static inline ColorgradListed colorgrad_ramp_flatten(ColorgradRamp ramp, float threshold, ColorgradRecord record,
                                                     ColorgradList list)
{
    return colorgrad_flatten(COLORGRAD_OF_RAMP(ramp), threshold, COLORGRAD_OF_RECORD(record), COLORGRAD_OF_LIST(list));
}

/* Hands out the next stop of the list that thinning would make, for a caller that has room for one, and writes nothing. From
 * the start, each time with the place handed out before, these are all its stops, and their evaluations add up to its own.
 * Refused with 1 to 5 or 20: the place stays as it was, but what its state does not use comes back as 0, and a state above 2
 * as 2; a place outside the record's rows and counts is 5. Refused with 8 or 9, after the stops before the faulty one:
 * nothing more comes. There is no 7. */
static inline ColorgradHanded colorgrad_ramp_next_stop(ColorgradRamp ramp, float threshold, ColorgradRecord record,
                                                       ColorgradPlace place)
{
    return colorgrad_next_stop(COLORGRAD_OF_RAMP(ramp), threshold, COLORGRAD_OF_RECORD(record), place);
}

/* ---- lists that keep their word
 *
 * A list that is within a hold of the ramp at the ramp's own positions, and at the f32 on both sides of each, whatever record
 * it is made of; and within the threshold at the record's points, so that colorgrad_ramp_judge says yes to a list made of a
 * fresh or a refreshed record. Differences are in the threshold's measure, of the colours taken into 0..1. The hold in force
 * is colorgrad_hold(hold, threshold); COLORGRAD_HOLD keeps depths apart. A hard edge is listed as two stops, one f32 apart.
 * Between these points nothing is promised of a curved ramp. */

/* Makes such a list of a record, which is not written; what lies past the last stop stays. Refused with 1 to 5 or 20: the list
 * stays as it was; with 7 (no room, or more than COLORGRAD_MOST_POINTS stops), 8 or 21: all of it is set to zero. 21 is for
 * colours beyond 16,382 alone. */
static inline ColorgradListed colorgrad_ramp_thin_within(ColorgradRamp ramp, float threshold, float hold,
                                                         ColorgradRecord record, ColorgradList list)
{
    return colorgrad_thin_within(COLORGRAD_OF_RAMP(ramp), threshold, hold, COLORGRAD_OF_RECORD(record),
                                 COLORGRAD_OF_LIST(list));
}

/* Fills a record and makes such a list of it. Refused with 1 to 5: nothing is changed; with 7, 8 or 21: the record is filled,
 * all of the list is set to zero. */
static inline ColorgradListed colorgrad_ramp_flatten_within(ColorgradRamp ramp, float threshold, float hold,
                                                            ColorgradRecord record, ColorgradList list)
{
    return colorgrad_flatten_within(COLORGRAD_OF_RAMP(ramp), threshold, hold, COLORGRAD_OF_RECORD(record),
                                    COLORGRAD_OF_LIST(list));
}

/* ---- edits, and a record refreshed after one
 *
 * The ramp as it was, its record, and an edit. Only the cells that the edit touches are filled anew; the record then equals
 * one of the changed ramp made afresh, and its words stay. The ramp itself is not written.
 *
 * A colour can be changed of any stop, of every kind but sharp and GIMP. A stop is moved, added or removed of linear and
 * smoothstep ramps; the first and the last stay, so an index is 1 to n - 2, of an added stop 1 to n - 1. After 20: another
 * kind of ramp, another index or a number that is not finite is 6; then a stop beyond COLORGRAD_MOST_STOPS is 1; then a
 * position below the stop before or above the one after is 3, equal ones are in order. */

/* The stop gets the colour; stops are counted from 0. */
static inline ColorgradEdit colorgrad_recolour(size_t stop, ColorgradRgba colour)
{
    ColorgradEdit edit = {COLORGRAD_EDIT_COLOUR, stop, 0.0f, colour};
    return edit;
}

/* The stop gets the position. */
static inline ColorgradEdit colorgrad_move(size_t stop, float position)
{
    ColorgradEdit edit = {COLORGRAD_EDIT_MOVE, stop, position, {0.0f, 0.0f, 0.0f, 0.0f}};
    return edit;
}

/* A stop more; stop is the index that it gets. */
static inline ColorgradEdit colorgrad_add(size_t stop, float position, ColorgradRgba colour)
{
    ColorgradEdit edit = {COLORGRAD_EDIT_ADD, stop, position, colour};
    return edit;
}

/* The stop goes. */
static inline ColorgradEdit colorgrad_remove(size_t stop)
{
    ColorgradEdit edit = {COLORGRAD_EDIT_REMOVE, stop, 0.0f, {0.0f, 0.0f, 0.0f, 0.0f}};
    return edit;
}

/* Refreshes the record. Refused with 1 to 6 or 20: the record stays as it was. */
static inline ColorgradSampled colorgrad_ramp_edit(ColorgradRamp ramp, ColorgradEdit edit, float threshold,
                                                   ColorgradRecord record)
{
    return colorgrad_edit(COLORGRAD_OF_RAMP(ramp), COLORGRAD_OF_EDIT(edit), threshold, COLORGRAD_OF_RECORD(record));
}

/* Refreshes the record and makes the list of the changed ramp; its evaluations are those of both. Refused with 1 to 6 or 20:
 * nothing is changed; with 7, 8 or 9: the record is refreshed, all of the list is set to zero. */
static inline ColorgradListed colorgrad_ramp_edit_list(ColorgradRamp ramp, ColorgradEdit edit, float threshold,
                                                       ColorgradRecord record, ColorgradList list)
{
    return colorgrad_edit_list(COLORGRAD_OF_RAMP(ramp), COLORGRAD_OF_EDIT(edit), threshold, COLORGRAD_OF_RECORD(record),
                               COLORGRAD_OF_LIST(list));
}

/* ---- a sheet: a ramp, its record and its list, which stay of one ramp through any number of edits
 *
 * A record that is lent by itself is its caller's own affair: one of another ramp on the same domain, sampled with the same
 * threshold, is refreshed without a word; and a caller that forgets to make the edit in its own ramp loses it at the next
 * one. A sheet holds all three, and an edit changes all three: this is the way to edit. After any edits, refused ones among
 * them, its record is the one that colorgrad_ramp_sample fills for its ramp, and its list the one that
 * colorgrad_ramp_flatten makes of it, or colorgrad_ramp_flatten_within. Only the calls below may write it. */

/* Whether a ramp of this kind has segments, and no stops. */
static inline bool colorgrad_has_segments(ColorgradKind kind)
{
    return kind == COLORGRAD_GIMP || kind == COLORGRAD_GIMP_SAVED;
}

/* The ramp of a sheet; its numbers stay the sheet's. */
static inline ColorgradRamp colorgrad_sheet_ramp(const ColorgradSheet *sheet)
{
    bool is_gimp = colorgrad_has_segments(sheet->kind);
    size_t n = sheet->stops;
    ColorgradRamp made = {sheet->kind, sheet->positions, is_gimp ? 3 * n : n, sheet->channels, (is_gimp ? 8 : 4) * n,
                          sheet->codes, is_gimp ? 2 * n : 0};
    return made;
}

/* The list of a sheet; its numbers stay the sheet's. It has no stops where the list is refused. */
static inline ColorgradStops colorgrad_sheet_list(const ColorgradSheet *sheet)
{
    return colorgrad_stops(sheet->list.places, sheet->list.colours, sheet->listed);
}

/* Keeps what a call on a sheet answered. */
static inline ColorgradSheetAnswer colorgrad_sheet_keep(ColorgradSheet *sheet, uint32_t refusal, const size_t *told)
{
    bool is_list = refusal == COLORGRAD_NO_ROOM || refusal == COLORGRAD_LIST_NOT_FINITE ||
                   refusal == COLORGRAD_LIST_FALLING || refusal == COLORGRAD_NOT_SHOWN;
    if (refusal == COLORGRAD_FINE || is_list) {
        sheet->stops = told[0];
        sheet->listed = told[1];
        sheet->list_refusal = refusal;
    }
    ColorgradSheetAnswer answer = {refusal, sheet->stops, sheet->listed, told[2]};
    return answer;
}

/* Copies a ramp into a sheet, whatever was in it, and fills its record and its list. Refused with 1 to 5: the sheet has no
 * stops, and every edit of it is refused with 1. Refused with 7, 8 or 21: the list alone is, and has no stops; a further edit
 * can mend it. */
static inline ColorgradSheetAnswer colorgrad_sheet_open(ColorgradSheet *sheet, ColorgradRamp ramp, float threshold,
                                                        ColorgradListSort list_sort, float hold)
{
    size_t told[3] = {0, 0, 0};
    size_t stops = colorgrad_has_segments(ramp.kind) ? ramp.codes_length / 2 : ramp.positions_length;
    uint32_t refusal = colorgrad_ramp_check(ramp);
    sheet->kind = ramp.kind;
    sheet->threshold = threshold;
    sheet->list_sort = list_sort;
    sheet->hold = hold;
    sheet->stops = 0;
    sheet->listed = 0;
    sheet->list_refusal = COLORGRAD_FINE;
    if (refusal != COLORGRAD_FINE)
        return colorgrad_sheet_keep(sheet, refusal, told);
    memcpy(sheet->positions, ramp.positions, ramp.positions_length * sizeof(float));
    memcpy(sheet->channels, ramp.channels, ramp.channels_length * sizeof(float));
    if (ramp.codes_length > 0)
        memcpy(sheet->codes, ramp.codes, ramp.codes_length);
    refusal = colorgrad_sheet_open_told(
        (uint32_t)ramp.kind, sheet->positions, COLORGRAD_MOST_STOPS, sheet->channels, 4 * COLORGRAD_MOST_STOPS,
        sheet->codes, ramp.codes_length, stops, threshold, (uint32_t)list_sort, hold, COLORGRAD_OF_SHEET(sheet), told, 3);
    return colorgrad_sheet_keep(sheet, refusal, told);
}

/* Makes an edit: of the ramp, of the record and of the list. Refused with 1 to 6 or 20: nothing is changed; an addition to
 * COLORGRAD_MOST_STOPS stops is 6. Refused with 7, 8, 9 or 21: the edit is made, and the list alone is refused and has no
 * stops; a further edit can mend it. */
static inline ColorgradSheetAnswer colorgrad_sheet_edit(ColorgradSheet *sheet, ColorgradEdit edit)
{
    size_t told[3] = {0, 0, 0};
    uint32_t refusal = colorgrad_sheet_edit_told(
        (uint32_t)sheet->kind, sheet->positions, COLORGRAD_MOST_STOPS, sheet->channels, 4 * COLORGRAD_MOST_STOPS,
        sheet->codes, colorgrad_has_segments(sheet->kind) ? 2 * sheet->stops : 0, sheet->stops, (uint32_t)edit.sort, edit.stop,
        edit.position, edit.colour.r, edit.colour.g, edit.colour.b, edit.colour.a, sheet->threshold,
        (uint32_t)sheet->list_sort, sheet->hold, COLORGRAD_OF_SHEET(sheet), told, 3);
    return colorgrad_sheet_keep(sheet, refusal, told);
}

/* Whether the list of a sheet shows its ramp within its threshold: colorgrad_ramp_judge, below, of the two. */
static inline ColorgradJudged colorgrad_sheet_judge(const ColorgradSheet *sheet)
{
    ColorgradRamp ramp = colorgrad_sheet_ramp(sheet);
    return colorgrad_judge(COLORGRAD_OF_RAMP(ramp), sheet->threshold, sheet->list.places, sheet->listed,
                           sheet->list.colours, 4 * sheet->listed);
}

/* ---- a list that was made elsewhere
 *
 * Whether a list of stops, mixed linearly, shows a ramp within a threshold. The verdict is yes exactly where the list has 2
 * to COLORGRAD_MOST_POINTS stops, four channels each, finite and never falling, starts and ends where the ramp does (-0 is
 * 0), and differs from the ramp, both colours taken into 0..1, by no more than the threshold that colorgrad_threshold gives:
 * at every point of a fresh sampling, and at max. Else it is no, with the first of these that is not so. Nothing is written,
 * and no record is asked for. Refused with 1 to 4, of the ramp alone: the verdict is then COLORGRAD_NOT_JUDGED. */
static inline ColorgradJudged colorgrad_ramp_judge(ColorgradRamp ramp, float threshold, ColorgradStops list)
{
    return colorgrad_judge(COLORGRAD_OF_RAMP(ramp), threshold, COLORGRAD_OF_STOPS(list));
}

/* Which depths became one in such a list. The judge looks at the points of a sampling, and says yes to a list that lost a
 * whole band between two of them; this call looks at the depths that it is asked about. Differences are in the threshold's
 * measure, of the colours taken into 0..1. A depth gets COLORGRAD_MOVED unless the list's colour there differs from the ramp's
 * by at most the threshold that colorgrad_threshold gives; COLORGRAD_CLOSE unless the ramp's colours at the depth before and
 * there differ by more than the step; and, where it is not close, COLORGRAD_MERGED unless the list's two do. The first depth
 * has none before it, and can only have moved. A difference that is not a number is a fault. What lies past the last byte
 * stays. Refused with 1 to 4, of the ramp; 22, a list that the judge turns down before it asks for colours; 23, depths: none,
 * or one that is not finite, outside min..max, or below the depth before it; 24, a step that is not finite, or below 0: the
 * bytes stay as they were; with 7, fewer bytes than depths: all of them are set to zero. */
static inline ColorgradApart colorgrad_ramp_apart(ColorgradRamp ramp, float threshold, float step, ColorgradStops list,
                                                  ColorgradDepths depths)
{
    return colorgrad_apart(COLORGRAD_OF_RAMP(ramp), threshold, step, COLORGRAD_OF_DEPTHS(depths),
                           COLORGRAD_OF_STOPS(list), COLORGRAD_OF_FAULTS(depths));
}

/* ---- the tool, and the leaves below it (colorgrad_calls.h)
 *
 * colorgrad_desk: what the tool `flatten` prints for an input, how many bytes. They are written to the start of output where
 * output holds them all, what lies past them stays; else all of output is set to zero. COLORGRAD_MOST_PRINTED bytes always
 * suffice.
 * colorgrad_threshold: the threshold that the calls on records and lists take where this one is asked for.
 * colorgrad_hold: the hold that lists which keep their word take where this one and this threshold are asked for.
 * colorgrad_root: the correctly rounded square root of any number; below zero, and of a NaN, a NaN.
 * colorgrad_cutoff: the number such that, for every s, half the root of s is above t exactly when s is above it. */

/* Whether the bytes are a number: a sign or none, digits with a point or none, 1 to 18 of them; and which, 0 if none. */
static inline ColorgradToken colorgrad_token(const uint8_t *text, size_t text_length)
{
    ColorgradToken token = {false, 0.0f};
    token.is_number = colorgrad_token_told(text, text_length, &token.value, 1) != 0;
    return token;
}

/* The same of a long token: any number of digits, of which 19 count when zeros at the start and at the end are left off, and
 * then perhaps 'e' or 'E', a sign or none and digits. A number beyond every float is infinite. */
static inline ColorgradToken colorgrad_long_token(const uint8_t *text, size_t text_length)
{
    ColorgradToken token = {false, 0.0f};
    token.is_number = colorgrad_long_token_told(text, text_length, &token.value, 1) != 0;
    return token;
}

#undef COLORGRAD_OF_STOPS
#undef COLORGRAD_OF_SEGMENTS
#undef COLORGRAD_OF_RAMP
#undef COLORGRAD_OF_RECORD
#undef COLORGRAD_OF_LIST
#undef COLORGRAD_OF_DEPTHS
#undef COLORGRAD_OF_FAULTS
#undef COLORGRAD_OF_EDIT

#ifdef __cplusplus
}
#endif

#endif
