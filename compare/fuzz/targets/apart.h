/* Depths of a list. */
#include "../lists.h"

/* A list that is asked about depths. */
typedef struct {
    const float *places, *colours;
    size_t stops;
    float step;
} Offer;

/* Depths of the ramp: its positions, each moved by a part of the domain, some not at all; rising but now and then. */
static float *depths_of(Ramp ramp, uint8_t how, Bytes *in, size_t *n)
{
    ColorgradDomain domain = colorgrad_domain(LENT_RAMP(ramp));
    float *depths = own(ramp.positions, ramp.positions_length * sizeof(float));
    *n = ramp.positions_length;
    for (size_t i = 0; i < *n; i++) {
        uint8_t part = how & 2 ? byte(in) : 0;
        float to = depths[i] + (float)part / 255.0f * (domain.max - depths[i]);
        bool rises = (i == 0 || to >= depths[i - 1]) && to >= domain.min && to <= domain.max;
        depths[i] = rises || how & 4 ? to : i == 0 ? domain.min : depths[i - 1];
    }
    return depths;
}

/* Whether the colours at two depths are clearly farther apart than the step, or clearly not. */
static int apart_by(ColorgradColour x, ColorgradColour y, float step)
{
    double sum = squared(x.colour, y.colour), above = step * 1.00001 + 1e-6, below = step * 0.99999 - 1e-6;
    return sum > above * above ? 1 : below > 0.0 && sum < below * below ? -1 : 0;
}

/* A byte that says what the colours say, where these are numbers. A list of more stops than a ramp may have cannot be asked. */
static void check_byte(Ramp ramp, Offer offer, const float *depths, uint8_t fault, size_t i)
{
    float threshold = colorgrad_threshold(ramp.threshold), t = depths[i], before = depths[i ? i - 1 : 0];
    ColorgradColour c = colorgrad_at(LENT_RAMP(ramp), t), last = colorgrad_at(LENT_RAMP(ramp), before);
    ColorgradColour l = colorgrad_at(COLORGRAD_LINEAR, offer.places, offer.stops, offer.colours, 4 * offer.stops, NULL, 0, t);
    ColorgradColour listed =
        colorgrad_at(COLORGRAD_LINEAR, offer.places, offer.stops, offer.colours, 4 * offer.stops, NULL, 0, before);
    int moved = apart_by(c, l, threshold), told = apart_by(last, c, offer.step), kept = apart_by(listed, l, offer.step);
    expect(moved != 1 || fault & COLORGRAD_MOVED, "a depth that moved");
    expect(moved != -1 || !(fault & COLORGRAD_MOVED), "a depth that did not move");
    if (i == 0)
        return;
    expect(told != 1 || !(fault & COLORGRAD_CLOSE), "two depths that the ramp tells apart");
    expect(told != -1 || fault & COLORGRAD_CLOSE, "two depths that it does not");
    expect(told != 1 || kept != -1 || fault & COLORGRAD_MERGED, "two depths that became one");
    expect(told != 1 || kept != 1 || !(fault & COLORGRAD_MERGED), "two depths that did not");
}

static void check_faults(Ramp ramp, Offer offer, const float *depths, size_t n, Lent lent, ColorgradApart told)
{
    const uint8_t *faults = items(lent);
    size_t moved = 0, close = 0, merged = 0, first = n;
    for (size_t i = 0; i < n; i++) {
        uint8_t beside = faults[i] & (COLORGRAD_CLOSE | COLORGRAD_MERGED);
        expect(faults[i] < 6 && beside != 6 && (i != 0 || beside == 0), "a byte that there is");
        moved += faults[i] & COLORGRAD_MOVED ? 1 : 0;
        close += beside == COLORGRAD_CLOSE;
        merged += beside == COLORGRAD_MERGED;
        first = first == n && beside == COLORGRAD_MERGED ? i : first;
        if (offer.stops <= COLORGRAD_MOST_STOPS)
            check_byte(ramp, offer, depths, faults[i], i);
    }
    expect(told.moved == moved && told.close == close && told.merged == merged && told.first_merged == first, "counts");
    expect(is_all(lent, n, RUBBISH), "what lies past the last depth stays");
}

/* Our own list, or one that keeps its word, at depths near the ramp's positions. */
static void fuzz_apart(Bytes in)
{
    float step = number(&in), *depths;
    uint8_t how = byte(&in), lack = byte(&in);
    Ramp ramp = ramp_of(&in);
    Desk desk = roomy();
    size_t n;
    ColorgradListed made =
        how & 1 ? colorgrad_flatten(LENT_RAMP(ramp), ramp.threshold, LENT_RECORD(desk), LENT_STOPS(desk))
                : colorgrad_flatten_within(LENT_RAMP(ramp), ramp.threshold, 0.0f, LENT_RECORD(desk), LENT_STOPS(desk));
    Offer offer = {items(desk.places), items(desk.colours), made.stops, step};
    ColorgradApart told;
    Lent faults;
    depths = depths_of(ramp, how, &in, &n);
    faults = lend(lack == 255 && n > 0 ? n - 1 : n + lack % 4);
    told = colorgrad_apart(LENT_RAMP(ramp), ramp.threshold, step, depths, n, offer.places, made.stops, offer.colours,
                           4 * made.stops, items(faults), faults.bytes);
    if (told.refusal == 0) {
        expect(made.refusal == 0 && is_finite(step) && step >= 0.0f && faults.bytes >= n, "nothing to refuse");
        check_faults(ramp, offer, depths, n, faults, told);
    } else {
        expect(told.refusal <= 4 || told.refusal == COLORGRAD_NO_ROOM ||
                   (told.refusal >= COLORGRAD_BAD_LIST && told.refusal <= COLORGRAD_BAD_STEP), "a refusal of depths");
        expect(told.refusal != COLORGRAD_BAD_LIST || made.refusal != 0, "our own list is taken");
        expect(told.refusal > 4 || told.refusal == made.refusal, "the ramp is refused alike");
        expect(told.moved + told.close + told.merged + told.first_merged == 0, "a refusal counts nothing");
        expect(is_all(faults, 0, told.refusal == COLORGRAD_NO_ROOM ? 0 : RUBBISH), "7 sets zero, the others nothing");
    }
    free(depths);
    give_back(faults);
    clear_desk(desk);
    drop(ramp);
}
