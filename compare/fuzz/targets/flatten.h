/* Flattening, beside sampling and thinning, steps and the verdict. */
#include "../lists.h"

/* Counts of 1 to 128, and +0 after them in each row. */
static void check_record(Desk desk)
{
    const float *rows = items(desk.rows);
    const uint8_t *counts = items(desk.counts);
    uint32_t bits;
    for (size_t cell = 0; cell < COLORGRAD_CELLS; cell++) {
        expect(counts[cell] >= 1 && counts[cell] <= COLORGRAD_ROW, "a count of 1 to 128");
        for (size_t i = counts[cell]; i < COLORGRAD_ROW; i++) {
            memcpy(&bits, rows + cell * COLORGRAD_ROW + i, sizeof bits);
            expect(bits == 0, "+0 after a row's count");
        }
    }
}

static void check_marks(Desk desk, Ramp ramp, float threshold)
{
    uint32_t own[COLORGRAD_MARKS];
    marks_of(own, ramp, threshold);
    expect(memcmp(items(desk.marks), own, sizeof own) == 0, "the words of a sampling");
}

/* Channels up to the largest of which nothing overflows: request (xii). */
static bool is_moderate(Ramp ramp)
{
    float most = ramp.kind == COLORGRAD_LINEAR ? 0x1.fffffep126f : 0x1.555554p125f;
    if (ramp.kind > COLORGRAD_SHARP)
        return false;
    for (size_t i = 0; i < ramp.channels_length; i++)
        if (!(ramp.channels[i] >= -most && ramp.channels[i] <= most))
            return false;
    return true;
}

/* One stop at a time: the stops of the list, or those before the one that it refuses, and then nothing more. */
static void check_steps(ColorgradListed whole, Desk desk, Ramp ramp)
{
    const float *places = items(desk.places), *colours = items(desk.colours);
    ColorgradPlace place = {COLORGRAD_START, 0, 0};
    ColorgradHanded handed = colorgrad_next_stop(LENT_RAMP(ramp), ramp.threshold, LENT_RECORD(desk), place);
    size_t n = 0, evaluations = 0;
    for (; handed.has_stop; n++) {
        expect(handed.refusal == 0 && n < COLORGRAD_MOST_POINTS, "as many stops as there are points");
        expect(whole.refusal != 0 || (n < whole.stops && handed.position == places[n] &&
                                      memcmp(&handed.colour, colours + 4 * n, sizeof handed.colour) == 0), "the list's stop");
        evaluations += handed.evaluations;
        handed = colorgrad_next_stop(LENT_RAMP(ramp), ramp.threshold, LENT_RECORD(desk), handed.place);
    }
    if (whole.refusal == 0)
        expect(handed.refusal == 0 && n == whole.stops && evaluations == whole.evaluations, "the whole list, in steps");
    else
        expect(handed.refusal == whole.refusal || whole.refusal == COLORGRAD_NO_ROOM, "the list's refusal, in steps");
    expect(handed.evaluations == 0 && handed.place.state == COLORGRAD_ENDED, "the end");
    handed = colorgrad_next_stop(LENT_RAMP(ramp), ramp.threshold, LENT_RECORD(desk), handed.place);
    expect(!handed.has_stop && handed.refusal == 0 && handed.place.state == COLORGRAD_ENDED, "nothing more");
}

/* What is said of the list that was made: nothing is wrong with its length, its stops and its ends. */
static void check_verdict(ColorgradListed made, Desk desk, Ramp ramp)
{
    size_t n = made.stops;
    ColorgradJudged told =
        colorgrad_judge(LENT_RAMP(ramp), ramp.threshold, items(desk.places), n, items(desk.colours), 4 * n);
    bool is_refused = made.refusal >= 1 && made.refusal <= COLORGRAD_FAR_DOMAIN;
    expect(told.refusal == (is_refused ? made.refusal : 0), "the ramp is refused alike, and a list never");
    expect(told.stop == 0, "no stop is named");
    if (told.verdict == COLORGRAD_TOO_FAR) {
        expect(made.refusal == 0, "a point of a list that there is");
        expect(told.row < COLORGRAD_CELLS ? told.index < COLORGRAD_ROW : told.row == COLORGRAD_CELLS && told.index == 0,
               "a point of a sampling");
        return;
    }
    expect(told.row == 0 && told.index == 0 && told.t == 0.0f, "no point is named");
    expect(told.verdict == (is_refused ? COLORGRAD_NOT_JUDGED : made.refusal != 0 ? COLORGRAD_WRONG_LENGTH : COLORGRAD_YES),
           "yes, or what is wrong");
}

static void fuzz_flatten(Bytes in)
{
    Ramp ramp = ramp_of(&in);
    uint32_t checked = colorgrad_check(LENT_RAMP(ramp));
    bool is_short = ramp.room == 255;
    size_t places = ramp.room % 4 == 1 ? ramp.room / 4 : COLORGRAD_MOST_POINTS;
    size_t colours = ramp.room % 4 == 2 ? ramp.room : 4 * COLORGRAD_MOST_POINTS;
    Desk desk = desk_of(COLORGRAD_ROWS - is_short, COLORGRAD_CELLS, places, colours);
    Desk twice = desk_of(COLORGRAD_ROWS - is_short, COLORGRAD_CELLS, places, colours);
    ColorgradListed made = colorgrad_flatten(LENT_RAMP(ramp), ramp.threshold, LENT_RECORD(desk), LENT_STOPS(desk));
    ColorgradSampled sampled = colorgrad_sample(LENT_RAMP(ramp), ramp.threshold, LENT_RECORD(twice));
    expect(checked <= 3 && (checked == 0 || made.refusal == checked), "the check comes first");
    check_list(made, desk, ramp);
    check_verdict(made, desk, ramp);
    if (made.refusal >= 1 && made.refusal <= 6) {
        expect(made.refusal <= 5 && sampled.refusal == made.refusal, "sampling is refused alike");
        expect(is_all(desk.rows, 0, RUBBISH) && is_all(desk.counts, 0, RUBBISH) && is_all(desk.marks, 0, RUBBISH),
               "the record stays");
        expect(is_all(twice.rows, 0, RUBBISH) && is_all(twice.counts, 0, RUBBISH) && is_all(twice.marks, 0, RUBBISH),
               "the record stays");
    } else {
        ColorgradListed thinned = colorgrad_thin(LENT_RAMP(ramp), ramp.threshold, LENT_RECORD(twice), LENT_STOPS(twice));
        expect(made.refusal != 9, "no list of our own sampling falls");
        expect(made.refusal != 8 || !is_moderate(ramp), "no colour of a moderate ramp overflows");
        check_record(desk);
        check_marks(desk, ramp, ramp.threshold);
        expect(sampled.refusal == 0 && sampled.evaluations <= 13716 && same_record(desk, twice), "sampled alike");
        expect(thinned.refusal == made.refusal && thinned.stops == made.stops, "thinned alike");
        expect(made.refusal != 0 || sampled.evaluations + thinned.evaluations == made.evaluations, "evaluations add");
        expect(memcmp(items(desk.places), items(twice.places), desk.places.bytes) == 0 &&
               memcmp(items(desk.colours), items(twice.colours), desk.colours.bytes) == 0, "one list");
        check_steps(thinned, twice, ramp);
    }
    clear_desk(desk);
    clear_desk(twice);
    drop(ramp);
}
