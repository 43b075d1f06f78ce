/* Two sea depths that became one. An editor paints the 50 m line darker, so that it can be told from the shore and from the
 * 100 m line, and the list for the press is made of the record that was sampled before: the list does not show the change.
 * colorgrad_ramp_apart says so, depth by depth; after a refresh, and of a list that keeps its word, it finds nothing merged.
 * Then the lost band of README: a list that the judge says yes to. Each answer is checked; the exit status is 0 where all are
 * as they must be. */
#include "colorgrad.h"
#include <stdio.h>
#include <string.h>

#define DEPTHS 7
#define BAND 6
#define STEP 0.02f /* readers tell two tints apart where they differ by more than this */

static const float metres[DEPTHS] = {0.0f, 50.0f, 100.0f, 200.0f, 1000.0f, 2000.0f, 4000.0f};
static const float tints[4 * DEPTHS] = {
    0.86f, 0.94f, 0.97f, 1.0f, 0.84f, 0.93f, 0.965f, 1.0f, 0.82f, 0.92f, 0.96f, 1.0f, 0.75f, 0.88f, 0.94f, 1.0f,
    0.45f, 0.7f,  0.84f, 1.0f, 0.2f,  0.45f, 0.66f,  1.0f, 0.03f, 0.05f, 0.17f, 1.0f,
};
static const ColorgradRgba darker = {0.74f, 0.88f, 0.93f, 1.0f};

static ColorgradRecordRoom stale, mended;
static ColorgradListRoom list;
static int wrong;

static void expect(bool is_so, const char *what)
{
    if (!is_so) {
        printf("WRONG: %s\n", what);
        wrong = 1;
    }
}

static ColorgradRamp linear(const float *positions, const float *channels, size_t stops)
{
    return colorgrad_ramp(COLORGRAD_LINEAR, colorgrad_stops(positions, channels, stops));
}

/* The stops that were written to the list. */
static ColorgradStops made(ColorgradListed listed)
{
    return colorgrad_list_stops(colorgrad_list(&list), listed.stops);
}

static void print_depth(const float *depths, const uint8_t *faults, size_t i)
{
    const char *then = faults[i] & COLORGRAD_MOVED ? ", " : "";
    printf("  %g: %s", depths[i], faults[i] == 0 ? "kept" : faults[i] & COLORGRAD_MOVED ? "moved" : "");
    if (faults[i] & COLORGRAD_CLOSE)
        printf("%stoo close to %g in the ramp itself", then, depths[i - 1]);
    if (faults[i] & COLORGRAD_MERGED)
        printf("%sone with %g in the list", then, depths[i - 1]);
    puts("");
}

/* The depths of a list that are not as in the ramp, at the ramp's own positions. */
static ColorgradApart told(const char *name, ColorgradRamp ramp, ColorgradStops stops)
{
    uint8_t faults[DEPTHS] = {0};
    ColorgradDepths depths = colorgrad_depths(ramp.positions, faults, ramp.positions_length);
    ColorgradApart apart = colorgrad_ramp_apart(ramp, COLORGRAD_THRESHOLD, STEP, stops, depths);
    printf("%s, %zu stops: %zu moved, %zu close, %zu merged\n", name, stops.positions_length, apart.moved, apart.close,
           apart.merged);
    for (size_t i = 0; i < depths.depths_length; i++)
        print_depth(depths.depths, faults, i);
    expect(apart.refusal == COLORGRAD_FINE, "not refused");
    return apart;
}

static void accident(void)
{
    float changed[4 * DEPTHS];
    ColorgradRamp before = linear(metres, tints, DEPTHS), after = linear(metres, changed, DEPTHS);
    ColorgradListed thinned;
    ColorgradApart apart;
    memcpy(changed, tints, sizeof changed);
    colorgrad_ramp_sample(before, COLORGRAD_THRESHOLD, colorgrad_record(&stale));
    mended = stale;

    memcpy(changed + 4, &darker, sizeof darker);
    thinned = colorgrad_ramp_thin(after, COLORGRAD_THRESHOLD, colorgrad_record(&stale), colorgrad_list(&list));
    apart = told("made of the record from before", after, made(thinned));
    expect(apart.merged == 2 && apart.first_merged == 1, "50 m is one with the shore, and 100 m with 50 m");

    colorgrad_ramp_edit(before, colorgrad_recolour(1, darker), COLORGRAD_THRESHOLD, colorgrad_record(&mended));
    thinned = colorgrad_ramp_thin(after, COLORGRAD_THRESHOLD, colorgrad_record(&mended), colorgrad_list(&list));
    apart = told("made after a refresh", after, made(thinned));
    expect(apart.merged == 0 && apart.first_merged == DEPTHS, "nothing is merged");

    thinned = colorgrad_ramp_thin_within(after, COLORGRAD_THRESHOLD, COLORGRAD_HOLD, colorgrad_record(&stale),
                                         colorgrad_list(&list));
    apart = told("one that keeps its word, of the record from before", after, made(thinned));
    expect(apart.moved == 0 && apart.merged == 0, "every depth as in the ramp");
}

/* examples/lost-band.tsv: the judge says yes to a list without the band. */
static void lost_band(void)
{
    static const float places[BAND] = {0.0f, 0.389f, 0.3891f, 0.4026f, 0.4027f, 1.0f};
    static const float colours[4 * BAND] = {
        0.0f, 0.0f, 0.0f, 1.0f, 0.389f,  0.389f,  0.389f,  1.0f, 1.0f, 0.0f, 0.0f, 1.0f,
        1.0f, 0.0f, 0.0f, 1.0f, 0.4027f, 0.4027f, 0.4027f, 1.0f, 1.0f, 1.0f, 1.0f, 1.0f,
    };
    ColorgradRamp band = linear(places, colours, BAND);
    ColorgradListed flat =
        colorgrad_ramp_flatten(band, COLORGRAD_THRESHOLD, colorgrad_record(&stale), colorgrad_list(&list));
    ColorgradJudged judged = colorgrad_ramp_judge(band, COLORGRAD_THRESHOLD, made(flat));
    ColorgradApart apart;
    printf("the lost band, judged: %s\n", colorgrad_verdict_message(judged.verdict));
    apart = told("the lost band", band, made(flat));
    expect(judged.verdict == COLORGRAD_YES && apart.moved == 2 && apart.merged == 2, "2 moved, 2 merged, and judged yes");
}

static void refused(const char *name, ColorgradApart apart, uint32_t refusal)
{
    printf("%s: refused %u, %s\n", name, (unsigned)apart.refusal, colorgrad_message(apart.refusal));
    expect(apart.refusal == refusal && apart.moved + apart.close + apart.merged + apart.first_merged == 0, name);
}

static void refusals(void)
{
    const float falling[2] = {100.0f, 50.0f};
    uint8_t faults[DEPTHS] = {[1] = 77};
    ColorgradRamp ramp = linear(metres, tints, DEPTHS);
    ColorgradStops own = colorgrad_stops(metres, tints, DEPTHS), start = colorgrad_stops(metres, tints, DEPTHS - 1);
    ColorgradDepths all = colorgrad_depths(metres, faults, DEPTHS), cramped = {metres, DEPTHS, faults, 2};
    refused("a list that ends too early", colorgrad_ramp_apart(ramp, 0.0f, STEP, start, all), COLORGRAD_BAD_LIST);
    refused("depths that fall", colorgrad_ramp_apart(ramp, 0.0f, STEP, own, colorgrad_depths(falling, faults, 2)),
            COLORGRAD_BAD_DEPTHS);
    refused("a step below 0", colorgrad_ramp_apart(ramp, 0.0f, -STEP, own, all), COLORGRAD_BAD_STEP);
    expect(faults[1] == 77, "22, 23 and 24 change nothing");
    refused("two bytes for seven depths", colorgrad_ramp_apart(ramp, 0.0f, STEP, own, cramped), COLORGRAD_NO_ROOM);
    expect(faults[1] == 0, "7 zeroes the bytes");
}

int main(void)
{
    accident();
    lost_band();
    refusals();
    puts(wrong ? "apart: WRONG" : "apart: every answer as it must be");
    return wrong;
}
