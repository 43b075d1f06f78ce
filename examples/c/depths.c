/* A sea-depth ramp through the C face: its colours, its list, edits and a refresh, and refusals with their messages.
 * Each answer is checked; the exit status is 0 where all are as they must be. */
#include "colorgrad.h"
#include <stdio.h>
#include <string.h>

#define STOPS 4

static const float positions[STOPS] = {0.0f, 0.25f, 0.5f, 1.0f};
static const float channels[4 * STOPS] = {
    0.03f, 0.05f, 0.17f, 1.0f, 0.04f, 0.22f, 0.45f, 1.0f, 0.08f, 0.32f, 0.57f, 1.0f, 0.85f, 0.94f, 0.97f, 1.0f,
};

/* A record, and the list made of it. */
typedef struct {
    ColorgradRecordRoom record;
    ColorgradListRoom list;
} Sheet;

static Sheet sheet, fresh;
static int wrong;

static void expect(bool is_so, const char *what)
{
    if (!is_so) {
        printf("WRONG: %s\n", what);
        wrong = 1;
    }
}

static ColorgradRamp linear(const float *places, const float *colours)
{
    return colorgrad_ramp(COLORGRAD_LINEAR, colorgrad_stops(places, colours, STOPS));
}

static ColorgradRamp depths(void)
{
    return linear(positions, channels);
}

static void print_stop(float place, const float *colour)
{
    printf("  %-8g  %.4f %.4f %.4f %.4f\n", place, colour[0], colour[1], colour[2], colour[3]);
}

static void print_list(const ColorgradListRoom *list, size_t stops)
{
    for (size_t i = 0; i < stops; i++)
        print_stop(list->places[i], list->colours + 4 * i);
}

static void colours(void)
{
    const float ts[3] = {0.0f, 0.125f, 2.0f};
    float out[13] = {[12] = 7.0f};
    ColorgradDomain domain = colorgrad_ramp_domain(depths());
    uint32_t refusal = colorgrad_ramp_paint(depths(), ts, 3, out, 13);
    ColorgradColour last = colorgrad_ramp_at(depths(), 2.0f);
    printf("colours on %g..%g\n", domain.min, domain.max);
    for (int i = 0; i < 3; i++)
        print_stop(ts[i], out + 4 * i);
    expect(domain.refusal == COLORGRAD_FINE && domain.min == 0.0f && domain.max == 1.0f, "the domain");
    expect(refusal == COLORGRAD_FINE, "painting");
    expect(memcmp(out, channels, 4 * sizeof *out) == 0, "the first colour is the first stop's");
    expect(memcmp(out + 8, channels + 12, 4 * sizeof *out) == 0, "past the last stop is the last stop's");
    expect(last.refusal == COLORGRAD_FINE && last.colour.r == 0.85f, "one colour by itself");
    expect(out[12] == 7.0f, "what lies past the colours stays");
}

static ColorgradListed flatten(ColorgradRamp ramp, Sheet *into)
{
    return colorgrad_ramp_flatten(ramp, COLORGRAD_THRESHOLD, colorgrad_record(&into->record), colorgrad_list(&into->list));
}

/* The record of the sheet and its list follow an edit of the ramp. */
static ColorgradListed edit(ColorgradEdit change, float threshold)
{
    return colorgrad_ramp_edit_list(depths(), change, threshold, colorgrad_record(&sheet.record),
                                    colorgrad_list(&sheet.list));
}

/* Whether the two sheets have the same record, and the same list of so many stops. */
static bool is_same(size_t stops)
{
    return memcmp(sheet.record.rows, fresh.record.rows, sizeof sheet.record.rows) == 0 &&
           memcmp(sheet.record.counts, fresh.record.counts, sizeof sheet.record.counts) == 0 &&
           memcmp(sheet.record.marks, fresh.record.marks, sizeof sheet.record.marks) == 0 &&
           memcmp(sheet.list.places, fresh.list.places, stops * sizeof(float)) == 0 &&
           memcmp(sheet.list.colours, fresh.list.colours, 4 * stops * sizeof(float)) == 0;
}

static void lists(void)
{
    const ColorgradRgba brighter = {0.1f, 0.38f, 0.6f, 1.0f};
    float changed[4 * STOPS];
    ColorgradListed made = flatten(depths(), &sheet), redone, again;
    printf("flattened: %zu stops, %zu evaluations\n", made.stops, made.evaluations);
    print_list(&sheet.list, made.stops);
    expect(made.refusal == COLORGRAD_FINE && made.stops == STOPS, "the list has the ramp's own stops");

    redone = edit(colorgrad_recolour(2, brighter), 0.01f);
    printf("refreshed with another threshold: refused %u, %s\n", (unsigned)redone.refusal,
           colorgrad_message(redone.refusal));
    expect(redone.refusal == COLORGRAD_OTHER_THRESHOLD, "another threshold than the record's");
    flatten(depths(), &fresh);
    expect(is_same(made.stops), "20 changes nothing");

    redone = edit(colorgrad_recolour(2, brighter), COLORGRAD_THRESHOLD);
    printf("stop 2 changed, refreshed: %zu stops, %zu evaluations\n", redone.stops, redone.evaluations);
    print_list(&sheet.list, redone.stops);

    memcpy(changed, channels, sizeof changed);
    memcpy(changed + 8, &brighter, sizeof brighter);
    again = flatten(linear(positions, changed), &fresh);
    expect(redone.refusal == COLORGRAD_FINE && redone.stops == again.stops, "as many stops as afresh");
    expect(is_same(again.stops), "the refreshed record and list are the fresh ones");
    expect(redone.evaluations < again.evaluations, "a refresh asks for fewer colours");
}

/* A thin red band between two depths: thinning passes over it, and a list that keeps its word shows it. */
static void kept_word(void)
{
    const float places[6] = {0.0f, 0.389f, 0.3891f, 0.4026f, 0.4027f, 1.0f};
    const float colours[24] = {
        0.0f, 0.0f, 0.0f, 1.0f, 0.389f, 0.389f, 0.389f, 1.0f, 1.0f, 0.0f, 0.0f, 1.0f,
        1.0f, 0.0f, 0.0f, 1.0f, 0.4027f, 0.4027f, 0.4027f, 1.0f, 1.0f, 1.0f, 1.0f, 1.0f,
    };
    ColorgradRamp band = colorgrad_ramp(COLORGRAD_LINEAR, colorgrad_stops(places, colours, 6));
    ColorgradListed lost = flatten(band, &sheet);
    ColorgradListed kept = colorgrad_ramp_flatten_within(band, COLORGRAD_THRESHOLD, COLORGRAD_HOLD,
                                                         colorgrad_record(&sheet.record), colorgrad_list(&sheet.list));
    ColorgradListed thinned, cramped;
    printf("a thin band: %zu stops without it, %zu stops that keep their word\n", lost.stops, kept.stops);
    print_list(&sheet.list, kept.stops);
    expect(lost.stops == 2, "thinning loses the band");
    expect(kept.refusal == COLORGRAD_FINE && kept.stops == 6, "six stops");
    expect(memcmp(sheet.list.places, places, sizeof places) == 0, "they are at the ramp's own positions");
    expect(memcmp(sheet.list.colours, colours, sizeof colours) == 0, "and have its colours");
    thinned = colorgrad_ramp_thin_within(band, COLORGRAD_THRESHOLD, COLORGRAD_HOLD, colorgrad_record(&sheet.record),
                                         colorgrad_list(&fresh.list));
    expect(thinned.stops == 6 && thinned.evaluations < kept.evaluations, "the same of the record");
    expect(thinned.evaluations <= COLORGRAD_MOST_WEIGHED, "its evaluations");
    cramped = colorgrad_ramp_thin_within(band, COLORGRAD_THRESHOLD, COLORGRAD_HOLD, colorgrad_record(&sheet.record),
                                         (ColorgradList){fresh.list.places, 5, fresh.list.colours, 24});
    expect(cramped.refusal == COLORGRAD_NO_ROOM && fresh.list.places[4] == 0.0f, "room for five of six: zeros");
    expect(colorgrad_hold(1.0f, 0.007f) == 0.007f && colorgrad_hold(0.0f, 0.007f) == COLORGRAD_HOLD, "holds in force");
}

/* A list from elsewhere: whether it shows the ramp. */
static ColorgradJudged judge(ColorgradStops list)
{
    return colorgrad_ramp_judge(depths(), COLORGRAD_THRESHOLD, list);
}

static void verdicts(void)
{
    const float ends[2] = {0.0f, 1.0f}, beyond[2] = {0.0f, 2.0f};
    const ColorgradRamp unknown = {(ColorgradKind)6, NULL, 0, NULL, 0, NULL, 0};
    float colours[8];
    ColorgradListed made = flatten(depths(), &sheet);
    ColorgradJudged own = judge(colorgrad_list_stops(colorgrad_list(&sheet.list), made.stops)), told;
    memcpy(colours, channels, 4 * sizeof *colours);
    memcpy(colours + 4, channels + 12, 4 * sizeof *colours);
    told = judge(colorgrad_stops(ends, colours, 2));
    printf("the list, judged: %s\n", colorgrad_verdict_message(own.verdict));
    printf("its ends alone: %s, first at %g\n", colorgrad_verdict_message(told.verdict), told.t);
    expect(own.refusal == COLORGRAD_FINE && own.verdict == COLORGRAD_YES, "the list of the ramp's own stops");
    expect(told.verdict == COLORGRAD_TOO_FAR && told.row < COLORGRAD_CELLS, "two stops for four");
    expect(judge(colorgrad_stops(beyond, colours, 2)).verdict == COLORGRAD_WRONG_LAST, "a list that ends elsewhere");
    expect(judge(colorgrad_stops(NULL, NULL, 0)).verdict == COLORGRAD_WRONG_LENGTH, "no list");
    expect(colorgrad_ramp_judge(unknown, 0.0f, colorgrad_stops(NULL, NULL, 0)).refusal == COLORGRAD_MISSHAPEN,
           "a kind that there is not");
}

/* Stop 1 is dragged to another position: the record and its list follow. Then a stop is added, and another one goes. */
static void edits(void)
{
    const float moved[STOPS] = {0.0f, 0.375f, 0.5f, 1.0f};
    const ColorgradRgba foam = {0.9f, 0.9f, 0.9f, 1.0f};
    ColorgradListed redone, again;
    flatten(depths(), &sheet);
    expect(edit(colorgrad_move(1, 0.75f), COLORGRAD_THRESHOLD).refusal == COLORGRAD_FALLING,
           "a stop dragged past the next one");
    redone = edit(colorgrad_move(1, moved[1]), COLORGRAD_THRESHOLD);
    printf("stop 1 dragged: %zu stops, %zu evaluations\n", redone.stops, redone.evaluations);
    again = flatten(linear(moved, channels), &fresh);
    expect(redone.refusal == COLORGRAD_FINE && redone.stops == again.stops, "a stop dragged");
    expect(is_same(again.stops), "the record and the list after it are the fresh ones");

    flatten(depths(), &sheet);
    redone = edit(colorgrad_add(3, 0.75f, foam), COLORGRAD_THRESHOLD);
    printf("a stop added: %zu stops, %zu evaluations\n", redone.stops, redone.evaluations);
    expect(redone.refusal == COLORGRAD_FINE && redone.stops == STOPS + 1 && sheet.list.places[3] == 0.75f, "a stop more");
    flatten(depths(), &sheet);
    expect(edit(colorgrad_remove(1), COLORGRAD_THRESHOLD).stops == STOPS - 1, "a stop less");
    expect(edit(colorgrad_remove(0), COLORGRAD_THRESHOLD).refusal == COLORGRAD_BAD_EDIT, "the first stop stays");
}

static void refusals(void)
{
    const float falling[STOPS] = {0.0f, 0.5f, 0.25f, 1.0f};
    const ColorgradRamp nothing = colorgrad_ramp(COLORGRAD_LINEAR, colorgrad_stops(NULL, NULL, 0));
    const ColorgradRecord none = {NULL, 0, NULL, 0, NULL, 0};
    float few[4] = {7.0f, 7.0f, 7.0f, 7.0f};
    ColorgradList room = {few, 1, few + 1, 3};
    ColorgradRamp uneven = depths();
    uint32_t refusal = colorgrad_ramp_check(linear(falling, channels));
    ColorgradListed cramped =
        colorgrad_ramp_flatten(depths(), COLORGRAD_THRESHOLD, colorgrad_record(&sheet.record), room);
    printf("stops out of order: refused %u, %s\n", (unsigned)refusal, colorgrad_message(refusal));
    expect(refusal == COLORGRAD_FALLING, "stops out of order");
    expect(cramped.refusal == COLORGRAD_NO_ROOM && cramped.stops == 0, "no room for a list");
    expect(few[0] == 0.0f && few[1] == 0.0f && few[2] == 0.0f && few[3] == 0.0f, "7 sets both outputs to zero");
    expect(colorgrad_ramp_paint(nothing, NULL, 0, NULL, 0) == COLORGRAD_MISSHAPEN, "nothing but null pointers");
    uneven.channels_length = 3;
    expect(colorgrad_ramp_sample(uneven, 0.0f, none).refusal == COLORGRAD_MISSHAPEN, "lengths that disagree");
    expect(colorgrad_ramp_sample(depths(), 0.0f, none).refusal == COLORGRAD_BAD_RECORD, "no record");
}

static void built_and_leaves(void)
{
    const float two[8] = {0.0f, 0.0f, 0.0f, 1.0f, 1.0f, 1.0f, 1.0f, 1.0f};
    float places[4], colours[16];
    ColorgradList room = {places, 4, colours, 16};
    ColorgradSharp built = colorgrad_build_sharp(two, 8, 0.0f, 1.0f, 0.5f, room);
    ColorgradRamp sharp = colorgrad_ramp(COLORGRAD_SHARP, colorgrad_list_stops(room, built.stops));
    expect(built.refusal == COLORGRAD_FINE && built.stops == 4, "a sharp ramp");
    expect(places[1] == 0.4375f && places[2] == 0.5625f && places[3] == 1.0f, "its positions");
    expect(colorgrad_ramp_at(sharp, 0.3f).colour.r == 0.0f && colorgrad_ramp_check(sharp) == 0, "its colours");
    built = colorgrad_build_sharp(NULL, 0, 0.0f, 1.0f, 0.5f, room);
    expect(built.refusal == COLORGRAD_NOT_BUILT && places[3] == 1.0f, "no colours: nothing is changed");
    expect(colorgrad_root(4.0f) == 2.0f && colorgrad_threshold(9.0f) == COLORGRAD_GREATEST_THRESHOLD, "leaves");
    expect(colorgrad_token((const uint8_t *)"0.1", 3).value == 0.1f, "a token");
    expect(colorgrad_root(colorgrad_cutoff(0.007f)) / 2.0f <= 0.007f, "a cutoff");
}

int main(void)
{
    colours();
    lists();
    kept_word();
    verdicts();
    edits();
    refusals();
    built_and_leaves();
    puts(wrong ? "depths: WRONG" : "depths: every answer as it must be");
    return wrong;
}
