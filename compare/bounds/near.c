/* near [MILLIONS]: how near the greatest that occurs comes to what docs/THEOREMS.md, 9 proves. Build it over the library:
 *
 *     cc -O2 -ffp-contract=off -I include -o near compare/bounds/near.c target/library/libcolorgrad_c.a -lm
 *
 * It prints a line for each bound, and ends with 1 where one is passed. Numbers are f32; what is exact is worked out in double. */
#include "colorgrad.h"
#include <math.h>
#include <stdio.h>
#include <stdlib.h>

#define MOST_STOPS 64
#define HOLD 0.001f

static uint64_t seed = 0x9e3779b97f4a7c15u;
static int passed;

static double random01(void)
{
    seed ^= seed << 13;
    seed ^= seed >> 7;
    seed ^= seed << 17;
    return (double)(seed >> 11) / 9007199254740992.0;
}

static void told(const char *what, double greatest, double bound)
{
    printf("%s: greatest %.6g, proved %.6g, %.1f %% of it\n", what, greatest, bound, 100 * greatest / bound);
    passed |= greatest > bound;
}

static float clamped(float x)
{
    return x < 0 ? 0 : x > 1 ? 1 : x;
}

/* document 01's difference */
static float difference(const float *x, const float *y)
{
    float sum = 0;
    for (int i = 0; i < 4; i++) {
        float d = clamped(x[i]) - clamped(y[i]);
        sum = i == 0 ? d * d : sum + d * d;
    }
    return sqrtf(sum) / 2;
}

/* ---- the way over two colours: points in a row, or nearly, of lengths of every size */
static void triangles(long count)
{
    double most = 0;
    for (long n = 0; n < count; n++) {
        float at[4][4];
        double along[4] = {0, 0, 0, 1}, size = pow(2, -20 * random01() * random01()), from[4], to[4];
        along[1] = random01();
        along[2] = along[1] + (1 - along[1]) * random01();
        for (int i = 0; i < 4; i++) {
            from[i] = random01() * (1 - size);
            to[i] = random01() < 0.3 ? 0 : size * random01();
        }
        for (int k = 0; k < 4; k++)
            for (int i = 0; i < 4; i++)
                at[k][i] = (float)(from[i] + along[k] * to[i]);
        double way = (double)difference(at[0], at[1]) + difference(at[1], at[2]) + difference(at[3], at[2]);
        if (way > 0)
            most = fmax(most, difference(at[0], at[3]) / way - 1);
    }
    told("the way over two colours, in parts", most, 168 / pow(2, 28));
}

/* ---- a mix against the straight line, from 0 to 1 */
static float mixed(float p, float q, float b, float c, float t)
{
    return b + (t - p) / (q - p) * (c - b);
}

static void mixes(long count)
{
    double most = 0;
    for (long n = 0; n < count; n++) {
        float p = (float)random01(), q = (float)(p + (1 - p) * pow(2, -24 * random01())), b = (float)random01(), c = (float)random01();
        float t = (float)(p + (q - p) * random01());
        if (!(p < t && t <= q && q <= 1))
            continue;
        double share = ((double)t - p) / ((double)q - p);
        most = fmax(most, fabs(mixed(p, q, b, c, t) - (b + share * ((double)c - b))));
    }
    told("a mix, off the straight line", most, 102 / pow(2, 28));
}

/* ---- lists: how many stops, and how much nearer two own positions are in the list than in the ramp */
static ColorgradRecordRoom record;
static ColorgradListRoom list;

static void colour(const float *places, const float *colours, size_t n, float t, float *out)
{
    size_t k = 0;
    while (k < n && places[k] < t)
        k++;
    for (int i = 0; i < 4; i++)
        out[i] = k == 0 || t <= places[0] ? colours[i]
            : t >= places[n - 1] ? colours[4 * (n - 1) + i]
            : mixed(places[k - 1], places[k], colours[4 * (k - 1) + i], colours[4 * k + i], t);
}

static int by_size(const void *x, const void *y)
{
    float a = *(const float *)x, b = *(const float *)y;
    return (a > b) - (a < b);
}

static void lists(long count)
{
    double stops = 0, nearer = 0;
    long pairs = 0, made_lists = 0, refused = 0;
    for (long n = 0; n < count; n++) {
        size_t m = 2 + (size_t)(random01() * (MOST_STOPS - 2));
        float places[MOST_STOPS], colours[4 * MOST_STOPS], in_ramp[MOST_STOPS][4], in_list[MOST_STOPS][4];
        double wander = pow(10, -3 * random01());
        for (size_t i = 0; i < m; i++) {
            places[i] = (float)random01();
            if (i > 0 && random01() < 0.2)
                places[i] = places[i - 1];
            for (int j = 0; j < 4; j++)
                colours[4 * i + j] = i == 0 ? (float)random01() : clamped((float)(colours[4 * (i - 1) + j] + wander * (2 * random01() - 1)));
        }
        qsort(places, m, sizeof *places, by_size);
        places[0] = 0;
        places[m - 1] = 1;
        float threshold = (float[]){0.001f, 0.007f, 0.035f}[n % 3];
        ColorgradRamp ramp = colorgrad_ramp(COLORGRAD_LINEAR, colorgrad_stops(places, colours, m));
        ColorgradListed made = colorgrad_ramp_flatten_within(ramp, threshold, HOLD, colorgrad_record(&record), colorgrad_list(&list));
        if (made.refusal != COLORGRAD_FINE) {
            refused++;
            continue;
        }
        made_lists++;
        stops = fmax(stops, (double)made.stops / (2 * (double)m + 4));
        for (size_t i = 0; i < m; i++) {
            colour(places, colours, m, places[i], in_ramp[i]);
            colour(list.places, list.colours, made.stops, places[i], in_list[i]);
        }
        for (size_t i = 0; i < m; i++)
            for (size_t j = i + 1; j < m; j++, pairs++)
                nearer = fmax(nearer, (double)difference(in_ramp[i], in_ramp[j]) - difference(in_list[i], in_list[j]));
    }
    printf("%ld lists, %ld refused, %ld pairs of own positions\n", made_lists, refused, pairs);
    passed |= refused > 0;
    told("stops, of twice the ramp's and four", stops, 1);
    told("nearer in the list than in the ramp", nearer, 2 * (double)HOLD + pow(2, -20));
}

/* ---- everywhere: of linear ramps on domains of every size, how much further off than the hold the list is at any f32; at random, beside an own position, beside a stop of the list */
static void random_ramp(float *places, float *colours, size_t m)
{
    double wander = pow(10, -3 * random01()), size = pow(2, 20 * random01() - 10), from = size * (2 * random01() - 1);
    for (size_t i = 0; i < m; i++) {
        places[i] = i > 0 && random01() < 0.1 ? places[i - 1] : (float)(from + size * random01());
        for (int j = 0; j < 4; j++)
            colours[4 * i + j] = i == 0 ? (float)random01() : clamped((float)(colours[4 * (i - 1) + j] + wander * (2 * random01() - 1)));
    }
    qsort(places, m, sizeof *places, by_size);
}

/* four stops, the two between beside the straight line from the first to the last, each channel by a hold: there the list is off by as much as it may, all the way from one to the other */
static void level_ramp(float *places, float *colours, float hold)
{
    double size = pow(2, 20 * random01() - 10), from = size * (2 * random01() - 1), less = 1 - 1e-6 * random01();
    for (size_t i = 0; i < 4; i++)
        places[i] = (float)(from + size * random01());
    qsort(places, 4, sizeof *places, by_size);
    for (int j = 0; j < 4; j++) {
        double first = 0.05 + 0.9 * random01(), last = 0.05 + 0.9 * random01(), beside = (random01() < 0.5 ? -hold : hold) * less;
        for (size_t i = 0; i < 4; i++) {
            double share = ((double)places[i] - places[0]) / ((double)places[3] - places[0]);
            colours[4 * i + (size_t)j] = (float)(first + share * (last - first) + (i % 3 == 0 ? 0 : beside));
        }
    }
}

static float any_depth(const float *places, size_t m, size_t stops)
{
    double pick = random01();
    float low = places[0], high = places[m - 1];
    float t = pick < 0.5 ? (float)(low + (high - low) * random01()) : pick < 0.75 ? places[(size_t)(random01() * (double)m)] : list.places[(size_t)(random01() * (double)stops)];
    for (int step = (int)(4 * random01()); pick >= 0.5 && step > 0; step--)
        t = nextafterf(t, random01() < 0.5 ? low : high);
    return t < low ? low : t > high ? high : t;
}

static void everywhere(long count)
{
    double further = -1, off = 0;
    long depths = 0, made_lists = 0;
    for (long n = 0; n < count; n++) {
        size_t m = 2 + (size_t)(random01() * (MOST_STOPS - 2));
        float places[MOST_STOPS], colours[4 * MOST_STOPS], hold = (float[]){0.001f, 0.007f, 0.035f}[n % 3];
        if (random01() < 0.5)
            random_ramp(places, colours, m);
        else
            level_ramp(places, colours, hold), m = 4;
        ColorgradRamp ramp = colorgrad_ramp(COLORGRAD_LINEAR, colorgrad_stops(places, colours, m));
        ColorgradListed made = colorgrad_ramp_flatten_within(ramp, 0.035f, hold, colorgrad_record(&record), colorgrad_list(&list));
        if (made.refusal != COLORGRAD_FINE)
            continue;
        made_lists++;
        for (int k = 0; k < 1000; k++, depths++) {
            float in_ramp[4], in_list[4], t = any_depth(places, m, made.stops);
            colour(places, colours, m, t, in_ramp);
            colour(list.places, list.colours, made.stops, t, in_list);
            further = fmax(further, (double)difference(in_ramp, in_list) - hold);
            off = fmax(off, (double)difference(in_ramp, in_list) / hold);
        }
    }
    printf("%ld lists, %ld depths; at most %.9f of the hold\n", made_lists, depths, off);
    told("everywhere, further off than the hold", further, pow(2, -19));
}

int main(int argc, char **argv)
{
    long millions = argc > 1 ? atol(argv[1]) : 1;
    triangles(millions * 1000000);
    mixes(millions * 1000000);
    lists(millions * 1000);
    everywhere(millions * 1000);
    return passed;
}
