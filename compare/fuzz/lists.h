/* What is promised of every list. */
#ifndef LISTS_H
#define LISTS_H

#include "desks.h"

static bool is_finite(float x)
{
    return x - x == 0.0f;
}

/* 7, 8, 9, and 21 of a list that keeps its word. */
static bool is_of_list(uint32_t refusal)
{
    return (refusal >= COLORGRAD_NO_ROOM && refusal <= COLORGRAD_LIST_FALLING) || refusal == COLORGRAD_NOT_SHOWN;
}

/* The outputs of a list, by its answer. */
static void check_list(ColorgradListed made, Desk desk, Ramp ramp)
{
    const float *places = items(desk.places), *colours = items(desk.colours);
    size_t n = made.stops;
    if (is_of_list(made.refusal)) {
        expect(n == 0 && made.evaluations == 0, "a refusal of a list");
        expect(is_all(desk.places, 0, 0) && is_all(desk.colours, 0, 0), "it sets zero");
        return;
    }
    if (made.refusal != 0) {
        expect(made.refusal <= 6 || made.refusal == COLORGRAD_OTHER_THRESHOLD, "a refusal before the list");
        expect(n == 0 && made.evaluations == 0, "a refusal counts nothing");
        expect(is_all(desk.places, 0, RUBBISH) && is_all(desk.colours, 0, RUBBISH), "it changes no output");
        return;
    }
    expect(n >= 1 && n <= desk.places.bytes / sizeof(float) && 4 * n <= desk.colours.bytes / sizeof(float), "room");
    expect(made.evaluations <= COLORGRAD_MOST_EVALUATIONS, "evaluations in range");
    expect(is_all(desk.places, n * sizeof(float), RUBBISH) && is_all(desk.colours, 4 * n * sizeof(float), RUBBISH),
           "what lies past the last stop stays");
    for (size_t i = 0; i < n; i++) {
        expect(is_finite(places[i]) && (i == 0 || places[i - 1] <= places[i]), "finite and not falling");
        for (size_t j = 4 * i; j < 4 * i + 4; j++)
            expect(is_finite(colours[j]), "finite colours");
    }
    expect(places[n - 1] == colorgrad_domain(LENT_RAMP(ramp)).max, "the last stop is at max");
}

/* How far apart two colours are, both clamped: half the root of the summed squares, as a square. */
static double squared(ColorgradRgba x, ColorgradRgba y)
{
    const float a[4] = {x.r, x.g, x.b, x.a}, b[4] = {y.r, y.g, y.b, y.a};
    double sum = 0.0;
    for (int i = 0; i < 4; i++) {
        float c = a[i] < 0.0f ? 0.0f : a[i] > 1.0f ? 1.0f : a[i], d = b[i] < 0.0f ? 0.0f : b[i] > 1.0f ? 1.0f : b[i];
        sum += (double)(c - d) * (double)(c - d) / 4.0;
    }
    return sum;
}

#endif
