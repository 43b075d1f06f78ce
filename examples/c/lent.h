/* What `calls` and `long_calls` lend: a ramp, and memory for a record and lists. */
#include "colorgrad.h"
#include <stdio.h>
#include <string.h>

#define STOPS 3
#define LENT COLORGRAD_LINEAR, positions, STOPS, channels, 4 * STOPS, NULL, 0
#define RECORD(x) (x).rows, COLORGRAD_ROWS, (x).counts, COLORGRAD_CELLS, (x).marks, COLORGRAD_MARKS
#define LIST(x) (x).places, COLORGRAD_MOST_POINTS, (x).colours, 4 * COLORGRAD_MOST_POINTS

static const float positions[STOPS] = {-1.0f, 0.5f, 2.0f};
static const float channels[4 * STOPS] = {0.1f, 0.2f, 0.3f, 0.4f, 0.9f, 0.8f, 0.7f, 0.6f, 0.0f, 0.5f, 1.0f, 1.0f};

static ColorgradRecordRoom record;
static ColorgradListRoom list, other_list;
static int wrong;

static void expect(bool is_so, const char *what)
{
    if (!is_so) {
        printf("WRONG: %s\n", what);
        wrong = 1;
    }
}
