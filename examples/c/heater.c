/* A swell-paper heater that has room for one stop: it is driven stop by stop, and keeps nothing between two stops but the
 * place. Each answer is checked; the exit status is 0 where all are as they must be. */
#include "colorgrad.h"
#include <stdio.h>

#define STOPS 4

static const float positions[STOPS] = {0.0f, 0.25f, 0.5f, 1.0f};
static const float channels[4 * STOPS] = {
    0.03f, 0.05f, 0.17f, 1.0f, 0.04f, 0.22f, 0.45f, 1.0f, 0.08f, 0.32f, 0.57f, 1.0f, 0.85f, 0.94f, 0.97f, 1.0f,
};

static ColorgradRecordRoom room;
static int wrong;

static void expect(bool is_so, const char *what)
{
    if (!is_so) {
        printf("WRONG: %s\n", what);
        wrong = 1;
    }
}

static ColorgradRamp depths(void)
{
    return colorgrad_ramp(COLORGRAD_SMOOTHSTEP, colorgrad_stops(positions, channels, STOPS));
}

static ColorgradHanded next_stop(float threshold, ColorgradPlace place)
{
    return colorgrad_ramp_next_stop(depths(), threshold, colorgrad_record(&room), place);
}

static bool is_at(ColorgradPlace place, uint32_t state, uint32_t row, uint32_t index)
{
    return place.state == state && place.row == row && place.index == index;
}

static bool is_refused(ColorgradHanded handed, uint32_t refusal, ColorgradPlace place)
{
    return handed.refusal == refusal && !handed.has_stop && handed.evaluations == 0 &&
           is_at(handed.place, place.state, place.row, place.index);
}

/* The pretend heater: how high the paper swells at a place is how dark it is there. */
static void heat(float position, ColorgradRgba colour)
{
    int height = (int)(24.0f * (1.0f - (colour.r + colour.g + colour.b) / 3.0f));
    printf("  %-8g  %.*s\n", position, height, "########################");
}

/* Drives the heater, and holds each stop against the whole list. */
static void drive(void)
{
    static ColorgradListRoom list;
    ColorgradListed whole =
        colorgrad_ramp_thin(depths(), COLORGRAD_THRESHOLD, colorgrad_record(&room), colorgrad_list(&list));
    ColorgradPlace place = {COLORGRAD_START, 0, 0};
    ColorgradHanded handed = next_stop(COLORGRAD_THRESHOLD, place);
    size_t stops = 0, evaluations = 0;
    while (handed.has_stop) {
        const float *colour = list.colours + 4 * stops;
        heat(handed.position, handed.colour);
        expect(stops < whole.stops && handed.position == list.places[stops] && handed.colour.r == colour[0] &&
                   handed.colour.g == colour[1] && handed.colour.b == colour[2] && handed.colour.a == colour[3],
               "a stop is the list's");
        stops++;
        evaluations += handed.evaluations;
        place = handed.place;
        handed = next_stop(COLORGRAD_THRESHOLD, place);
    }
    printf("%zu stops, %zu evaluations\n", stops, evaluations);
    expect(whole.refusal == COLORGRAD_FINE && stops == whole.stops, "all stops of the list, and no more");
    expect(evaluations == whole.evaluations, "evaluations add up");
    for (int i = 0; i < 3; i++) {
        expect(is_refused(handed, COLORGRAD_FINE, place) && place.state == COLORGRAD_ENDED, "nothing more comes");
        handed = next_stop(COLORGRAD_THRESHOLD, handed.place);
    }
}

/* What a heater gets whose place or record is not right. */
static void refusals(void)
{
    ColorgradPlace start = {COLORGRAD_START, 0, 0}, inside = {COLORGRAD_AFTER, 35, 0}, ended = {COLORGRAD_ENDED, 0, 0};
    ColorgradPlace past_rows = {COLORGRAD_AFTER, 36, 0}, past_count = {COLORGRAD_AFTER, 0, room.counts[0]};
    ColorgradPlace unused = {COLORGRAD_ENDED + 7, 5, 6};
    ColorgradHanded first;
    float kept = room.rows[0];
    expect(is_refused(next_stop(0.01f, inside), COLORGRAD_OTHER_THRESHOLD, inside), "another threshold leaves the place");
    expect(is_refused(next_stop(0.01f, ended), COLORGRAD_OTHER_THRESHOLD, ended), "the end is told after the checks");
    expect(is_refused(next_stop(0.01f, unused), COLORGRAD_OTHER_THRESHOLD, ended), "what the end does not use is 0");
    expect(is_refused(next_stop(COLORGRAD_THRESHOLD, past_rows), COLORGRAD_BAD_RECORD, past_rows), "a row past the last");
    expect(is_refused(next_stop(0.01f, past_count), COLORGRAD_BAD_RECORD, past_count), "an index past its row's count");
    /* a record that falls: the stop before the faulty one, its refusal, and then nothing more */
    room.rows[0] = 2.0f;
    first = next_stop(COLORGRAD_THRESHOLD, start);
    expect(first.has_stop && first.position == 2.0f && is_at(first.place, COLORGRAD_AFTER, 0, 0), "the stop before");
    expect(is_refused(next_stop(COLORGRAD_THRESHOLD, first.place), COLORGRAD_LIST_FALLING, ended), "a stop that falls");
    printf("a record that falls: refused %u, %s\n", COLORGRAD_LIST_FALLING, colorgrad_message(COLORGRAD_LIST_FALLING));
    room.rows[0] = kept;
}

int main(void)
{
    ColorgradSampled sampled = colorgrad_ramp_sample(depths(), COLORGRAD_THRESHOLD, colorgrad_record(&room));
    expect(sampled.refusal == COLORGRAD_FINE, "sampling");
    drive();
    refusals();
    return wrong;
}
