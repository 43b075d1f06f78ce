/* A sheet of sea tints, edited as an editor does: the 50 m line painted darker, a depth put in, one moved, one taken out, and
 * an edit that cannot be made. After each the sheet is held to its ramp flattened afresh: record and list are the same, bit
 * for bit. Then the same with lists that keep their word. The exit status is 0 where all is as it must be. */
#include "colorgrad.h"
#include <stdio.h>
#include <string.h>

#define DEPTHS 5

static const float metres[DEPTHS] = {0.0f, 50.0f, 200.0f, 1000.0f, 4000.0f};
static const float tints[4 * DEPTHS] = {
    0.86f, 0.94f, 0.97f, 1.0f, 0.84f, 0.93f, 0.965f, 1.0f, 0.75f, 0.88f, 0.94f, 1.0f,
    0.45f, 0.7f,  0.84f, 1.0f, 0.03f, 0.05f, 0.17f,  1.0f,
};

static ColorgradSheet sheet;
static ColorgradRecordRoom record;
static ColorgradListRoom list;
static int wrong;

static void expect(bool is_so, const char *what)
{
    if (!is_so) {
        printf("WRONG: %s\n", what);
        wrong = 1;
    }
}

/* What flattening the sheet's ramp afresh gives. */
static ColorgradListed flattened(void)
{
    ColorgradRamp ramp = colorgrad_sheet_ramp(&sheet);
    if (sheet.list_sort == COLORGRAD_LIST_THINNED)
        return colorgrad_ramp_flatten(ramp, sheet.threshold, colorgrad_record(&record), colorgrad_list(&list));
    return colorgrad_ramp_flatten_within(ramp, sheet.threshold, sheet.hold, colorgrad_record(&record),
                                         colorgrad_list(&list));
}

static void hold_to_ramp(const char *name, ColorgradSheetAnswer answer)
{
    ColorgradListed fresh = flattened();
    ColorgradStops stops = colorgrad_sheet_list(&sheet);
    size_t n = stops.positions_length;
    expect(fresh.refusal == sheet.list_refusal && fresh.stops == n, "as many stops as afresh");
    expect(memcmp(&record, &sheet.record, sizeof record) == 0, "the record is the ramp's");
    expect(memcmp(list.places, stops.positions, n * sizeof(float)) == 0, "the list's positions are the ramp's");
    expect(memcmp(list.colours, stops.channels, 4 * n * sizeof(float)) == 0, "the list's colours are the ramp's");
    printf("%s: %u, %zu stops, %zu listed, %zu evaluations\n", name, (unsigned)answer.refusal, answer.stops, answer.listed,
           answer.evaluations);
}

static void edit_all(ColorgradListSort sort)
{
    ColorgradRamp ramp = colorgrad_ramp(COLORGRAD_LINEAR, colorgrad_stops(metres, tints, DEPTHS));
    ColorgradRgba darker = {0.74f, 0.88f, 0.93f, 1.0f}, deep = {0.2f, 0.45f, 0.66f, 1.0f};
    hold_to_ramp("opened", colorgrad_sheet_open(&sheet, ramp, COLORGRAD_THRESHOLD, sort, COLORGRAD_HOLD));
    hold_to_ramp("50 m darker", colorgrad_sheet_edit(&sheet, colorgrad_recolour(1, darker)));
    hold_to_ramp("2,000 m put in", colorgrad_sheet_edit(&sheet, colorgrad_add(4, 2000.0f, deep)));
    hold_to_ramp("200 m moved to 150", colorgrad_sheet_edit(&sheet, colorgrad_move(2, 150.0f)));
    hold_to_ramp("moved past 1,000 m", colorgrad_sheet_edit(&sheet, colorgrad_move(2, 1500.0f)));
    hold_to_ramp("50 m taken out", colorgrad_sheet_edit(&sheet, colorgrad_remove(1)));
    expect(sheet.stops == DEPTHS && sheet.positions[1] == 150.0f, "the ramp is the edited one");
}

int main(void)
{
    puts("The list that thinning makes:");
    edit_all(COLORGRAD_LIST_THINNED);
    expect(colorgrad_sheet_judge(&sheet).refusal == COLORGRAD_FINE, "the list is judged");
    puts("The list that keeps its word:");
    edit_all(COLORGRAD_LIST_WITHIN);
    expect(colorgrad_sheet_judge(&sheet).verdict == COLORGRAD_YES, "the judge says yes");
    return wrong;
}
