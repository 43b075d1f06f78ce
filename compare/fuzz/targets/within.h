/* Lists that keep their word. */
#include "../lists.h"

/* At its own positions the list is within the hold of the ramp. A list of more stops than a ramp may have cannot be asked. */
static void check_held(ColorgradListed made, Desk desk, Ramp ramp, float hold)
{
    double off = colorgrad_hold(hold, ramp.threshold) * 1.000001;
    if (made.stops < 2 || made.stops > COLORGRAD_MOST_STOPS || of_segments(ramp.kind))
        return;
    for (size_t i = 0; i < ramp.positions_length; i++) {
        float t = ramp.positions[i];
        ColorgradColour shown = colorgrad_at(COLORGRAD_LINEAR, items(desk.places), made.stops, items(desk.colours),
                                             4 * made.stops, NULL, 0, t);
        expect(shown.refusal == 0 && squared(shown.colour, colorgrad_at(LENT_RAMP(ramp), t).colour) <= off * off,
               "its own positions are held");
    }
}

static void check_rises(ColorgradListed made, Desk desk)
{
    const float *places = items(desk.places);
    for (size_t i = 1; i < made.stops; i++)
        expect(places[i - 1] < places[i] || made.stops == 2, "each stop lies above the one before");
}

/* A record that is not the ramp's, with its words: any points of any counts. */
static void spoil(Desk desk, Ramp ramp, Bytes *in)
{
    uint8_t *counts = items(desk.counts);
    float *rows = items(desk.rows);
    for (size_t i = 0; i < COLORGRAD_CELLS; i++)
        counts[i] = (uint8_t)(byte(in) % (COLORGRAD_ROW + 2));
    for (size_t i = 0; in->left >= 4 && i < COLORGRAD_ROWS; i += 31)
        rows[i] = number(in);
    marks_of(items(desk.marks), ramp, ramp.threshold);
}

static void fuzz_within(Bytes in)
{
    float hold = number(&in);
    uint8_t how = byte(&in);
    Ramp ramp = ramp_of(&in);
    size_t places = ramp.room % 4 == 1 ? ramp.room / 4 : COLORGRAD_MOST_POINTS;
    Desk desk = desk_of(COLORGRAD_ROWS, COLORGRAD_CELLS, places, 4 * COLORGRAD_MOST_POINTS);
    Desk twice = desk_of(COLORGRAD_ROWS, COLORGRAD_CELLS, places, 4 * COLORGRAD_MOST_POINTS);
    ColorgradListed made =
        colorgrad_flatten_within(LENT_RAMP(ramp), ramp.threshold, hold, LENT_RECORD(desk), LENT_STOPS(desk));
    ColorgradSampled sampled = colorgrad_sample(LENT_RAMP(ramp), ramp.threshold, LENT_RECORD(twice));
    ColorgradListed thinned;
    check_list(made, desk, ramp);
    expect(made.refusal != COLORGRAD_LIST_FALLING && made.refusal != COLORGRAD_OTHER_THRESHOLD, "no 9, no 20");
    check_rises(made, desk);
    check_held(made, desk, ramp, hold);
    if (made.refusal == 0)
        expect(colorgrad_judge(LENT_RAMP(ramp), ramp.threshold, items(desk.places), made.stops, items(desk.colours),
                               4 * made.stops).verdict == COLORGRAD_YES, "the judge says yes");
    if (sampled.refusal == 0 && how & 1)
        spoil(twice, ramp, &in);
    thinned = colorgrad_thin_within(LENT_RAMP(ramp), ramp.threshold, hold, LENT_RECORD(twice), LENT_STOPS(twice));
    expect(thinned.evaluations <= COLORGRAD_MOST_WEIGHED, "evaluations in range");
    check_list(thinned, twice, ramp);
    check_rises(thinned, twice);
    check_held(thinned, twice, ramp, hold);
    if (!(how & 1) || sampled.refusal != 0) {
        expect(thinned.refusal == made.refusal || sampled.refusal != 0, "thinned alike");
        expect(made.refusal != 0 || (same_record(desk, twice) && thinned.stops == made.stops), "the same record");
        expect(made.refusal != 0 || sampled.evaluations + thinned.evaluations == made.evaluations, "evaluations add");
        expect(made.refusal != 0 || (memcmp(items(desk.places), items(twice.places), desk.places.bytes) == 0 &&
               memcmp(items(desk.colours), items(twice.colours), desk.colours.bytes) == 0), "one list");
    }
    clear_desk(desk);
    clear_desk(twice);
    drop(ramp);
}
