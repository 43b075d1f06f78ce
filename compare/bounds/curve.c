// The factor of a curved segment, compiled from the proved source, beside the rule worked out here from its words, and beside
// the published formula. Pairs are drawn at random; the seed can be given.
#include <math.h>
#include <stdint.h>
#include <stdio.h>
#include <stdlib.h>
#include <string.h>
#include <time.h>

float curve_factor(float place, float middle);

static uint32_t bits_of(float x) {
    uint32_t b;
    memcpy(&b, &x, 4);
    return b;
}

static float from_bits(uint32_t b) {
    float x;
    memcpy(&x, &b, 4);
    return x;
}

// ---- the rule: x is m / 2^k with m from 1/2 to below 1, which frexpf tells, of a subnormal too
static float depth(float x) {
    int e;
    float m = frexpf(x, &e);
    float s = (1.0f - m) / (1.0f + m), z = s * s;
    return (float)-e + s * (2.88539f + z * (0.96193f + z * (0.5707f + z * 0.498f)));
}

static float rule(float place, float middle) {
    if (isnan(place)) return place;
    if (place <= 0) return 0;
    if (place >= 1) return 1;
    if (isnan(middle)) return middle;
    if (middle <= 0) return 1;
    if (middle >= 1) return 0;
    float r = depth(place) / depth(middle);
    if (r >= 32) return 0;
    float j = floorf(r), u = 1.0f - (r - j);
    return ldexpf(1.0f + u * (0.69315f + u * (0.24016f + u * (0.05584f + u * (0.00895f + u * 0.0019f)))), -1 - (int)j);
}

// ---- the published formula, for a middle from 2^-23 to 1 - 2^-23
static float published(float place, float middle) {
    return expf(-0.693147180559945309417232121458176568f * log10f(place) / log10f(middle));
}

// ---- random pairs
static uint64_t state;

static uint64_t next_word(void) {
    state += 0x9e3779b97f4a7c15u;
    uint64_t z = state;
    z = (z ^ z >> 30) * 0xbf58476d1ce4e5b9u;
    z = (z ^ z >> 27) * 0x94d049bb133111ebu;
    return z ^ z >> 31;
}

static float below_one(void) { return (float)(next_word() >> 40) * 0x1p-24f; }

enum { EVEN, ANY_SIZE, SUBNORMAL, NEAR_ONE, BESIDE_A_POWER, HUNDREDTHS, ANY_BITS, SORTS };

static float drawn(void) {
    switch (next_word() % SORTS) {
    case EVEN: return below_one();
    case ANY_SIZE: return from_bits((uint32_t)(next_word() % 0x3f800000));
    case SUBNORMAL: return from_bits((uint32_t)(next_word() % 0x800001));
    case NEAR_ONE: return from_bits(0x3f800001 - (uint32_t)(1u << next_word() % 24) + (uint32_t)(next_word() % 3));
    case BESIDE_A_POWER: return from_bits((uint32_t)(1 + next_word() % 127) * 0x800000 + (uint32_t)(next_word() % 5) - 2);
    case HUNDREDTHS: return (float)(next_word() % 101) / 100.0f;
    default: return from_bits((uint32_t)next_word());
    }
}

// A place for a middle: drawn alike, the middle itself, or where the ratio of the depths is near a whole number up to 33.
static float place_for(float middle) {
    switch (next_word() % 8) {
    case 0: return middle;
    case 1: {
        float near = powf(middle, (float)(next_word() % 34));
        return from_bits(bits_of(near) + (uint32_t)(next_word() % 9) - 4);
    }
    case 2: return powf(middle, 33.0f * below_one());
    default: return drawn();
    }
}

static int same(float a, float b) { return bits_of(a) == bits_of(b) || (isnan(a) && isnan(b)); }

// ---- times: medians of 21 repetitions in turn, processor time of the thread, ns for each of the points
enum { POINTS = 4096, REPETITIONS = 21, TURNS = 16 };

static double seconds(void) {
    struct timespec t;
    clock_gettime(CLOCK_THREAD_CPUTIME_ID, &t);
    return (double)t.tv_sec + (double)t.tv_nsec * 1e-9;
}

static volatile float sink;

static double timed(float (*f)(float, float), const float *places, const float *middles) {
    double start = seconds();
    float sum = 0;
    for (int turn = 0; turn < TURNS; turn++)
        for (int i = 0; i < POINTS; i++) sum += f(places[i], middles[i]);
    sink = sum;
    return (seconds() - start) * 1e9 / (POINTS * TURNS);
}

static int rising(const void *a, const void *b) {
    double x = *(const double *)a, y = *(const double *)b;
    return (x > y) - (x < y);
}

static void times(void) {
    static float places[POINTS], middles[POINTS];
    double ours[REPETITIONS], theirs[REPETITIONS];
    for (int i = 0; i < POINTS; i++) {
        places[i] = below_one();
        middles[i] = 0.02f + 0.96f * below_one();
    }
    for (int k = 0; k < REPETITIONS; k++) {
        ours[k] = timed(curve_factor, places, middles);
        theirs[k] = timed(published, places, middles);
    }
    qsort(ours, REPETITIONS, sizeof *ours, rising);
    qsort(theirs, REPETITIONS, sizeof *theirs, rising);
    printf("ns a point, any place and middle: %.1f, the published formula %.1f\n", ours[REPETITIONS / 2], theirs[REPETITIONS / 2]);
}

int main(int count, char **words) {
    long pairs = count > 1 ? atol(words[1]) : 10000000;
    state = count > 2 ? strtoull(words[2], 0, 10) : 42;
    long differ = 0, inside = 0, compared = 0, equal = 0, subnormal = 0, zero = 0;
    double gap = 0;
    float at_place = 0, at_middle = 0;
    for (long i = 0; i < pairs; i++) {
        float middle = drawn(), place = place_for(middle);
        float ours = curve_factor(place, middle), ruled = rule(place, middle);
        if (!same(ours, ruled) && differ++ < 10) printf("place %08x middle %08x: %08x, by the rule %08x\n", bits_of(place), bits_of(middle), bits_of(ours), bits_of(ruled));
        if (!(place > 0 && place < 1 && middle > 0 && middle < 1)) continue;
        inside++;
        subnormal += place < 0x1p-126f || middle < 0x1p-126f;
        zero += ours == 0;
        if (middle < 0x1p-23f || 1.0f - middle < 0x1p-23f) continue;
        compared++;
        double off = fabs((double)ours - published(place, middle));
        equal += off == 0;
        if (off > gap) gap = off, at_place = place, at_middle = middle;
    }
    printf("%ld pairs, %ld of them strictly inside (%ld with a subnormal, %ld factors that are 0): %ld differ from the rule\n", pairs, inside, subnormal, zero, differ);
    printf("%ld beside the published formula: equal %ld, the greatest gap %.3g = 2^%.2f (place %.9g, middle %.9g)\n", compared, equal, gap, log2(gap), at_place, at_middle);
    times();
    return differ != 0;
}
