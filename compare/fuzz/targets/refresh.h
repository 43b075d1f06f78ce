/* Refreshing. */
#include "../lists.h"

/* Every row is the one that was there, or the fresh one of the changed ramp. */
static void check_rows(Desk before, Desk after, Desk fresh)
{
    for (size_t cell = 0; cell < COLORGRAD_CELLS; cell++) {
        size_t at = cell * COLORGRAD_ROW * sizeof(float), bytes = COLORGRAD_ROW * sizeof(float);
        const uint8_t *was = items(before.rows), *is = items(after.rows), *new = items(fresh.rows);
        uint8_t count = ((uint8_t *)items(after.counts))[cell];
        bool kept = memcmp(is + at, was + at, bytes) == 0 && count == ((uint8_t *)items(before.counts))[cell];
        bool redone = memcmp(is + at, new + at, bytes) == 0 && count == ((uint8_t *)items(fresh.counts))[cell];
        expect(kept || redone, "a row is kept or redone");
    }
}

static void check_fresh(Ramp ramp, size_t stop, ColorgradRgba colour, Desk before, Desk after, bool was_sampled,
                        ColorgradListed made)
{
    Desk fresh = roomy();
    ColorgradListed whole;
    memcpy(ramp.channels + 4 * stop, &colour, sizeof colour);
    whole = colorgrad_flatten(LENT_RAMP(ramp), ramp.threshold, LENT_RECORD(fresh), LENT_STOPS(fresh));
    check_rows(before, after, fresh);
    if (was_sampled) {
        expect(same_record(after, fresh), "the refreshed record is the fresh one");
        expect(made.refusal == whole.refusal && made.stops == whole.stops, "the refreshed list is the fresh one");
        expect(made.evaluations <= whole.evaluations, "a refresh asks for no more");
        expect(memcmp(items(after.places), items(fresh.places), after.places.bytes) == 0 &&
               memcmp(items(after.colours), items(fresh.colours), after.colours.bytes) == 0, "stop by stop");
    }
    clear_desk(fresh);
}

/* The ramp's own record, or rubbish with its words. */
static void fill_record(Desk desk, Ramp ramp, uint8_t how)
{
    if (how & 1)
        colorgrad_sample(LENT_RAMP(ramp), ramp.threshold, LENT_RECORD(desk));
    else {
        memset(items(desk.counts), how, desk.counts.bytes);
        marks_of(items(desk.marks), ramp, ramp.threshold);
    }
    /* one word in hand is another's */
    if (how & 64)
        ((uint32_t *)items(desk.marks))[how >> 1 & 1] ^= 1u << (how >> 2 & 7);
}

static void copy_record(Desk to, Desk from)
{
    memcpy(items(to.rows), items(from.rows), from.rows.bytes);
    memcpy(items(to.counts), items(from.counts), from.counts.bytes);
    memcpy(items(to.marks), items(from.marks), from.marks.bytes);
}

static void fuzz_refresh(Bytes in)
{
    uint8_t how = byte(&in), far = byte(&in);
    ColorgradRgba colour = {number(&in), (float)byte(&in) / 255.0f, (float)byte(&in) / 255.0f, 1.0f};
    Ramp ramp = ramp_of(&in);
    size_t n = ramp.channels_length / 4, stop = far == 255 ? (size_t)-1 : far % (n + 1);
    Desk before = roomy(), desk = roomy(), again = roomy();
    bool was_sampled = how & 1;
    ColorgradSampled refreshed;
    ColorgradListed made;
    fill_record(before, ramp, how);
    copy_record(desk, before);
    copy_record(again, before);
    refreshed = colorgrad_refresh(LENT_RAMP(ramp), stop, colour, ramp.threshold, LENT_RECORD(again));
    made = colorgrad_refresh_list(LENT_RAMP(ramp), stop, colour, ramp.threshold, LENT_RECORD(desk), LENT_STOPS(desk));
    expect((refreshed.refusal <= 6 || refreshed.refusal == COLORGRAD_OTHER_THRESHOLD) && refreshed.evaluations <= 13716,
           "a refresh in range");
    expect(!(how & 64) || refreshed.refusal != 0, "words of another's are refused");
    expect(same_record(desk, again), "both refresh alike");
    if (refreshed.refusal != 0) {
        expect(made.refusal == refreshed.refusal, "both are refused alike");
        expect(refreshed.evaluations == 0 && same_record(desk, before), "a refusal leaves the record");
        check_list(made, desk, ramp);
    } else {
        expect(ramp.kind < COLORGRAD_GIMP && ramp.kind != COLORGRAD_SHARP && stop < n, "an edit that is one");
        check_list(made, desk, ramp);
        check_fresh(ramp, stop, colour, before, desk, was_sampled, made);
    }
    clear_desk(before);
    clear_desk(desk);
    clear_desk(again);
    drop(ramp);
}
