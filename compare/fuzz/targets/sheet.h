/* Sheets. */
#include "../lists.h"

/* A sheet as it is lent: a ramp with room, of which so many stops count, and the desk of its record and its list. */
typedef struct {
    Ramp first;
    Lent positions, channels;
    size_t stops;
    Desk desk;
    uint32_t sort;
    float hold;
} Sheet;

#define LENT_SHEET(s) \
    (s).first.kind, items((s).positions), (s).positions.bytes / sizeof(float), items((s).channels), \
        (s).channels.bytes / sizeof(float), (s).first.codes, (s).first.codes_length, (s).stops

static Sheet sheet_of(Ramp ramp, size_t more, uint32_t sort, float hold)
{
    Sheet sheet = {ramp, lend((ramp.positions_length + more) * sizeof(float)),
                   lend((ramp.channels_length + 4 * more) * sizeof(float)), ramp.positions_length, roomy(), sort, hold};
    if (of_segments(ramp.kind))
        sheet.stops = ramp.codes_length / 2;
    memcpy(items(sheet.positions), ramp.positions, ramp.positions_length * sizeof(float));
    memcpy(items(sheet.channels), ramp.channels, ramp.channels_length * sizeof(float));
    return sheet;
}

/* The ramp of a sheet, without its room. */
static Ramp ramp_in(Sheet sheet)
{
    Ramp ramp = sheet.first;
    bool has_segments = of_segments(ramp.kind);
    ramp.positions_length = (has_segments ? 3 : 1) * sheet.stops;
    ramp.channels_length = (has_segments ? 8 : 4) * sheet.stops;
    ramp.positions = items(sheet.positions);
    ramp.channels = items(sheet.channels);
    return ramp;
}

static Lent copied(Lent lent)
{
    Lent copy = lend(lent.bytes);
    memcpy(items(copy), items(lent), lent.bytes);
    return copy;
}

/* Whether it is what it was; the copy is given back. */
static bool is_same(Lent lent, Lent copy)
{
    bool same = lent.bytes == copy.bytes && memcmp(items(lent), items(copy), lent.bytes) == 0;
    give_back(copy);
    return same;
}

static void strew(Desk desk)
{
    memset(items(desk.places), RUBBISH, desk.places.bytes);
    memset(items(desk.colours), RUBBISH, desk.colours.bytes);
}

/* Record and list are those of the sheet's ramp, made afresh. */
static void check_sheet(Sheet sheet, uint32_t refusal, const size_t *told)
{
    Ramp ramp = ramp_in(sheet);
    Desk fresh = roomy();
    ColorgradListed made = {refusal, told[1], told[2]}, whole;
    whole = sheet.sort ? colorgrad_flatten_within(LENT_RAMP(ramp), ramp.threshold, sheet.hold, LENT_RECORD(fresh),
                                                  LENT_STOPS(fresh))
                       : colorgrad_flatten(LENT_RAMP(ramp), ramp.threshold, LENT_RECORD(fresh), LENT_STOPS(fresh));
    check_list(made, sheet.desk, ramp);
    expect(same_record(sheet.desk, fresh), "a sheet's record is the fresh one");
    expect(made.refusal == whole.refusal && made.stops == whole.stops, "a sheet's list is the fresh one");
    expect(made.evaluations <= whole.evaluations, "an edit asks for no more");
    expect(memcmp(items(sheet.desk.places), items(fresh.places), fresh.places.bytes) == 0 &&
           memcmp(items(sheet.desk.colours), items(fresh.colours), fresh.colours.bytes) == 0, "stop by stop");
    clear_desk(fresh);
}

/* Whether ramp, record and list are left by a refusal. */
static bool is_left(uint32_t refusal)
{
    return refusal != 0 && !is_of_list(refusal);
}

static void edit_sheet(Sheet *sheet, Bytes *in)
{
    uint32_t sort = byte(in) % 4;
    size_t stop = byte(in) % (sheet->stops + 2), told[3] = {7, 7, 7}, stops = sheet->stops;
    uint8_t how = byte(in), part = byte(in);
    ColorgradRgba c = {(float)byte(in) / 255.0f, how & 1 ? number(in) : 0.5f, (float)part / 255.0f, 1.0f};
    const float *p = items(sheet->positions);
    float position = how & 2 ? number(in)
                     : stop > 0 && stop < stops ? p[stop - 1] + (float)part / 255.0f * (p[stop] - p[stop - 1]) : 0.5f;
    Lent positions = copied(sheet->positions), channels = copied(sheet->channels), rows = copied(sheet->desk.rows),
         counts = copied(sheet->desk.counts), marks = copied(sheet->desk.marks);
    uint32_t refusal;
    strew(sheet->desk);
    refusal = colorgrad_sheet_edit_told(LENT_SHEET(*sheet), sort, stop, position, c.r, c.g, c.b, c.a,
                                        sheet->first.threshold, sheet->sort, sheet->hold, LENT_RECORD(sheet->desk),
                                        LENT_STOPS(sheet->desk), told, 3);
    sheet->stops = told[0];
    if (is_left(refusal)) {
        bool ramp = is_same(sheet->positions, positions), colours = is_same(sheet->channels, channels);
        bool record = is_same(sheet->desk.rows, rows), counted = is_same(sheet->desk.counts, counts);
        bool marked = is_same(sheet->desk.marks, marks);
        expect(ramp && colours && record && counted && marked, "a refused edit changes nothing");
        expect(told[0] == stops && told[1] == 0 && told[2] == 0, "and tells the stops alone");
        check_list((ColorgradListed){refusal, 0, 0}, sheet->desk, ramp_in(*sheet));
        return;
    }
    give_back(positions), give_back(channels), give_back(rows), give_back(counts), give_back(marks);
    expect(told[0] == stops + (sort == COLORGRAD_EDIT_ADD) - (sort == COLORGRAD_EDIT_REMOVE), "the stops move along");
    check_sheet(*sheet, refusal, told);
}

/* Edits one after the other, as long as there are bytes for them. */
static void fuzz_sheet(Bytes in)
{
    uint8_t how = byte(&in);
    float hold = number(&in);
    /* the edits come first, so that a ramp of any length has some */
    size_t edits = 24 * (how >> 2 & 15) < in.left ? 24 * (how >> 2 & 15) : in.left, told[3] = {7, 7, 7};
    Bytes words = {in.data, edits}, rest = {in.data + edits, in.left - edits};
    Sheet sheet = sheet_of(ramp_of(&rest), how & 1 ? 20 : how >> 6, how >> 1 & 1, hold);
    Ramp ramp = ramp_in(sheet);
    uint32_t refusal =
        colorgrad_sheet_open_told(LENT_SHEET(sheet), ramp.threshold, sheet.sort, hold, LENT_RECORD(sheet.desk),
                                  LENT_STOPS(sheet.desk), told, 3);
    expect(told[0] == sheet.stops, "the stops are told");
    if (is_left(refusal)) {
        expect(refusal <= 4, "a refusal of the ramp");
        expect(is_all(sheet.desk.rows, 0, RUBBISH) && is_all(sheet.desk.counts, 0, RUBBISH) &&
               is_all(sheet.desk.marks, 0, RUBBISH), "it leaves the record");
    } else {
        check_sheet(sheet, refusal, told);
        while (words.left > 0)
            edit_sheet(&sheet, &words);
    }
    give_back(sheet.positions);
    give_back(sheet.channels);
    clear_desk(sheet.desk);
    drop(sheet.first);
}
