/* Holds the headers to the library: the long calls beside those over structs. It is C and C++. Each answer is checked; the
 * exit status is 0 where all are as they must be. */
#include "lent.h"

static const ColorgradRgba grey = {0.5f, 0.25f, 0.125f, 1.0f};
static ColorgradRecordRoom other_record;

static ColorgradRamp ramp(void)
{
    return colorgrad_ramp(COLORGRAD_LINEAR, colorgrad_stops(positions, channels, STOPS));
}

static bool is_same_record(void)
{
    return memcmp(record.rows, other_record.rows, sizeof record.rows) == 0 &&
           memcmp(record.counts, other_record.counts, sizeof record.counts) == 0 &&
           memcmp(record.marks, other_record.marks, sizeof record.marks) == 0;
}

static bool is_same_list(ColorgradListed one, ColorgradListed other)
{
    return one.refusal == other.refusal && one.stops == other.stops && one.evaluations == other.evaluations &&
           memcmp(list.places, other_list.places, sizeof list.places) == 0 &&
           memcmp(list.colours, other_list.colours, sizeof list.colours) == 0;
}

static void long_ramps(void)
{
    ColorgradDomain domain = colorgrad_domain(LENT), told = colorgrad_ramp_domain(ramp());
    ColorgradColour at = colorgrad_at(LENT, 0.0f), shown = colorgrad_ramp_at(ramp(), 0.0f);
    ColorgradJudged judged = colorgrad_judge(LENT, 0.01f, positions, 2, channels, 8);
    float places[4], colours[16];
    ColorgradList room = {places, 4, colours, 16};
    ColorgradSharp sharp = colorgrad_sharp(channels, 8, 0.0f, 1.0f, 0.5f, places, 4, colours, 16);
    expect(domain.refusal == 0 && domain.min == told.min && domain.max == told.max && told.max == 2.0f, "the domain");
    expect(at.refusal == 0 && memcmp(&at, &shown, sizeof at) == 0, "a colour");
    expect(judged.refusal == 0 && judged.verdict == COLORGRAD_WRONG_LAST, "a verdict");
    expect(sharp.refusal == 0 && sharp.stops == 4 && colours[4] == 0.1f, "a sharp ramp");
    expect(colorgrad_build_sharp(channels, 8, 0.0f, 1.0f, 0.5f, room).stops == 4, "the same over structs");
    expect(colorgrad_check(6, NULL, 0, NULL, 0, NULL, 0) == COLORGRAD_MISSHAPEN, "a kind that there is not");
    expect(colorgrad_domain(UINT32_MAX, positions, STOPS, channels, 4 * STOPS, NULL, 0).refusal == 1, "nor this one");
    expect(colorgrad_flatten(COLORGRAD_BASIS, positions, STOPS, channels, 3, NULL, 0, 0.0f, NULL, 0, NULL, 0, NULL, 0,
                             NULL, 0, NULL, 0).refusal == COLORGRAD_MISSHAPEN, "lengths that disagree");
}

static void long_lists(void)
{
    const ColorgradPlace start = {COLORGRAD_START, 0, 0};
    ColorgradListed one = colorgrad_flatten(LENT, 0.01f, RECORD(record), LIST(list)), other;
    ColorgradHanded handed = colorgrad_next_stop(LENT, 0.01f, RECORD(record), start), told;
    other = colorgrad_ramp_flatten(ramp(), 0.01f, colorgrad_record(&other_record), colorgrad_list(&other_list));
    expect(one.refusal == 0 && one.stops == STOPS && is_same_list(one, other) && is_same_record(), "flattened");
    other = colorgrad_thin(LENT, 0.01f, RECORD(record), LIST(other_list));
    expect(is_same_list(colorgrad_ramp_thin(ramp(), 0.01f, colorgrad_record(&record), colorgrad_list(&list)), other), "thinned");
    told = colorgrad_ramp_next_stop(ramp(), 0.01f, colorgrad_record(&record), start);
    expect(handed.has_stop && handed.position == -1.0f && handed.colour.a == 0.4f && handed.evaluations == told.evaluations &&
               handed.place.state == COLORGRAD_AFTER && told.colour.a == 0.4f && told.place.row == handed.place.row,
           "handed out");
    expect(colorgrad_sample(LENT, 0.02f, RECORD(record)).evaluations ==
               colorgrad_ramp_sample(ramp(), 0.02f, colorgrad_record(&other_record)).evaluations,
           "sampled");
    expect(is_same_record() && colorgrad_threshold(0.02f) == 0.02f, "into the same record");
}

static void long_within(void)
{
    ColorgradListed one = colorgrad_flatten_within(LENT, 0.01f, 0.002f, RECORD(record), LIST(list)), other;
    other = colorgrad_ramp_flatten_within(ramp(), 0.01f, 0.002f, colorgrad_record(&other_record),
                                          colorgrad_list(&other_list));
    expect(one.refusal == 0 && one.stops == STOPS && is_same_list(one, other) && is_same_record(), "flattened within");
    other = colorgrad_thin_within(LENT, 0.01f, 0.002f, RECORD(record), LIST(other_list));
    one = colorgrad_ramp_thin_within(ramp(), 0.01f, 0.002f, colorgrad_record(&record), colorgrad_list(&list));
    expect(is_same_list(one, other) && one.evaluations <= COLORGRAD_MOST_WEIGHED, "thinned within");
    expect(colorgrad_hold(0.5f, 0.01f) == 0.01f, "no hold above the threshold");
}

/* Of a list of the ends alone the stop between them has moved. */
static void long_apart(void)
{
    const float ends[2] = {-1.0f, 2.0f}, colours[8] = {0.1f, 0.2f, 0.3f, 0.4f, 0.0f, 0.5f, 1.0f, 1.0f};
    uint8_t faults[STOPS + 1] = {7, 7, 7, 7}, told[STOPS] = {7, 7, 7};
    ColorgradApart one = colorgrad_apart(LENT, 0.01f, 0.02f, positions, STOPS, ends, 2, colours, 8, faults, STOPS + 1);
    ColorgradApart other = colorgrad_ramp_apart(ramp(), 0.01f, 0.02f, colorgrad_stops(ends, colours, 2),
                                                colorgrad_depths(positions, told, STOPS));
    expect(one.refusal == 0 && one.moved == 1 && one.merged == 0 && one.first_merged == STOPS, "a depth moved");
    expect(memcmp(faults, told, STOPS) == 0 && faults[1] == COLORGRAD_MOVED && faults[STOPS] == 7, "its byte");
    expect(other.moved == one.moved && other.close == one.close && other.first_merged == STOPS, "the same over structs");
}

/* Each sort of edit by the long call, and over structs: the record and the list are the same. */
static void long_edits(void)
{
    const ColorgradEdit edits[4] = {colorgrad_recolour(1, grey), colorgrad_move(1, 0.0f), colorgrad_add(2, 1.0f, grey),
                                    colorgrad_remove(1)};
    ColorgradListed one, other;
    for (size_t i = 0; i < 4; i++) {
        const ColorgradEdit edit = edits[i];
        colorgrad_sample(LENT, 0.01f, RECORD(record));
        colorgrad_sample(LENT, 0.01f, RECORD(other_record));
        expect((size_t)edit.sort == i, "sorts in their order");
        one = colorgrad_edit_list(LENT, (uint32_t)edit.sort, edit.stop, edit.position, edit.colour, 0.01f, RECORD(record),
                                  LIST(list));
        other = colorgrad_ramp_edit_list(ramp(), edit, 0.01f, colorgrad_record(&other_record), colorgrad_list(&other_list));
        expect(one.refusal == 0 && is_same_list(one, other) && is_same_record(), "an edit and its list");
        colorgrad_sample(LENT, 0.01f, RECORD(other_record));
        expect(colorgrad_edit(LENT, (uint32_t)edit.sort, edit.stop, edit.position, edit.colour, 0.01f,
                              RECORD(other_record)).refusal == 0 && is_same_record(), "an edit alone");
        colorgrad_sample(LENT, 0.01f, RECORD(other_record));
        expect(colorgrad_ramp_edit(ramp(), edit, 0.01f, colorgrad_record(&other_record)).refusal == 0 && is_same_record(),
               "the same over structs");
    }
    colorgrad_sample(LENT, 0.01f, RECORD(record));
    colorgrad_sample(LENT, 0.01f, RECORD(other_record));
    one = colorgrad_refresh_list(LENT, 1, grey, 0.01f, RECORD(record), LIST(list));
    other = colorgrad_ramp_edit_list(ramp(), edits[0], 0.01f, colorgrad_record(&other_record), colorgrad_list(&other_list));
    expect(one.refusal == 0 && is_same_list(one, other) && is_same_record(), "a refresh and its list");
    colorgrad_sample(LENT, 0.01f, RECORD(other_record));
    expect(colorgrad_refresh(LENT, 1, grey, 0.01f, RECORD(other_record)).refusal == 0 && is_same_record(), "a refresh alone");
}

static void long_texts(void)
{
    const float ends[2] = {0.0f, 1.0f};
    uint8_t text[COLORGRAD_WRITTEN_BYTES(2)], codes[2];
    float places[3], colours[8];
    ColorgradSegments room = {places, 3, colours, 8, codes, 2};
    ColorgradWritten written = colorgrad_write_ggr(ends, 2, channels, 8, text, sizeof text);
    ColorgradRead read = colorgrad_read(text, written.bytes, grey, grey, places, 3, colours, 8, codes, 2);
    expect(written.refusal == 0 && read.refusal == 0 && read.segments == 1 && read.line == 0, "written and read");
    expect(memcmp(colours, channels, sizeof colours) == 0, "bit for bit");
    expect(colorgrad_write_stops(colorgrad_stops(ends, channels, 2), text, sizeof text).bytes == written.bytes, "over structs");
    expect(colorgrad_read_segments(text, 40, grey, grey, room).line == 4 && colours[0] == 0.0f, "half a segment");
    expect(colorgrad_ramp_check(colorgrad_segments_ramp(room, 2)) == COLORGRAD_MISSHAPEN, "more segments than there is room for");
}

int main(void)
{
    long_ramps();
    long_lists();
    long_within();
    long_apart();
    long_edits();
    long_texts();
    puts(wrong ? "long_calls: WRONG" : "long_calls: they answer as those over structs");
    return wrong;
}
