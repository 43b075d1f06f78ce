/* The outputs of a flattening: a record of its points, and a list. */
#ifndef DESKS_H
#define DESKS_H

#include "ramps.h"

typedef struct {
    Lent rows, counts, marks, places, colours;
} Desk;

static Desk desk_of(size_t rows, size_t counts, size_t places, size_t colours)
{
    Desk desk;
    desk.rows = lend(rows * sizeof(float));
    desk.counts = lend(counts);
    desk.marks = lend(COLORGRAD_MARKS * sizeof(uint32_t));
    desk.places = lend(places * sizeof(float));
    desk.colours = lend(colours * sizeof(float));
    return desk;
}

static Desk roomy(void)
{
    return desk_of(COLORGRAD_ROWS, COLORGRAD_CELLS, COLORGRAD_MOST_POINTS, 4 * COLORGRAD_MOST_POINTS);
}

#define LENT_RECORD(d) \
    items((d).rows), (d).rows.bytes / sizeof(float), items((d).counts), (d).counts.bytes, items((d).marks), \
        (d).marks.bytes / sizeof(uint32_t)
#define LENT_STOPS(d) \
    items((d).places), (d).places.bytes / sizeof(float), items((d).colours), (d).colours.bytes / sizeof(float)

static void clear_desk(Desk desk)
{
    give_back(desk.rows);
    give_back(desk.counts);
    give_back(desk.marks);
    give_back(desk.places);
    give_back(desk.colours);
}

static bool same_record(Desk a, Desk b)
{
    return a.rows.bytes == b.rows.bytes && a.counts.bytes == b.counts.bytes &&
           memcmp(items(a.rows), items(b.rows), a.rows.bytes) == 0 &&
           memcmp(items(a.counts), items(b.counts), a.counts.bytes) == 0 &&
           memcmp(items(a.marks), items(b.marks), a.marks.bytes) == 0;
}

/* The bits of the threshold in force and of both ends. */
static void marks_of(uint32_t *marks, Ramp ramp, float threshold)
{
    ColorgradDomain domain = colorgrad_domain(LENT_RAMP(ramp));
    float own[COLORGRAD_MARKS] = {colorgrad_threshold(threshold), domain.min, domain.max};
    memcpy(marks, own, sizeof own);
}

#endif
