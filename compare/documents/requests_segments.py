"""Colours of sinusoidal and of curved segments."""
import math
import random

from document import NEAR, f32, linear, quotient
from sine import worked_out

GIMP, GIMP_SAVED = 5, 6
CURVED, SINUSOIDAL = 1, 2


# ---- (i) sinusoidal segments

def wave(table, factor):
    place = f32(min(max(factor, 0.0), 1.0) * 1024.0)
    i = int(place)
    if i == 1024:
        return 1.0
    low, high = float(table[i]), float(table[i + 1])
    return f32(f32(low + f32(f32(high - low) * f32(place - i))) * 2.0 ** -24)


def along(left, middle, right, t):
    """Where the middle and t lie, from 0 to 1."""
    length = f32(right - left)
    return [0.5, 0.5] if length < NEAR else [quotient(f32(x - left), length) for x in (middle, t)]


def factor_of(segment, t):
    mid, place = along(*segment, t)
    if place <= mid:
        return 0.0 if mid < NEAR else f32(f32(0.5 * place) / mid)
    rest = f32(1.0 - mid)
    return 1.0 if rest < NEAR else f32(0.5 + f32(f32(0.5 * f32(place - mid)) / rest))


def waved(segment, left, right, t, table=worked_out()[0]):
    return linear(left, right, wave(table, factor_of(segment, t)))


# ---- curved segments

def polynomial(x, *coefficients):
    """a + x (b + x (c + ..)), each operation rounded once, from the inside out."""
    value = f32(coefficients[-1])
    for coefficient in coefficients[-2::-1]:
        value = f32(f32(coefficient) + f32(x * value))
    return value


def depth(x):
    """How many halvings lead from 1 to x."""
    m, exponent = math.frexp(x)
    s = quotient(f32(1.0 - m), f32(1.0 + m))
    return f32(-exponent + f32(s * polynomial(f32(s * s), 2.88539, 0.96193, 0.5707, 0.498)))


def curve(place, middle):
    if not 0.0 < place < 1.0:
        return 0.0 if place <= 0.0 else 1.0
    r = quotient(depth(place), depth(middle))
    if r >= 32.0:
        return 0.0
    j = int(r)
    return f32(polynomial(f32(1.0 - f32(r - j)), 1.0, 0.69315, 0.24016, 0.05584, 0.00895, 0.0019) * 2.0 ** -(1 + j))


def curved(segment, left, right, t):
    middle, place = along(*segment, t)
    if middle < NEAR or f32(1.0 - middle) < NEAR:
        return right if middle < NEAR else left
    return linear(left, right, curve(place, middle))


# ---- both

def waves(words, rng):
    ends = [(0.0, 0.5, 1.0), (0.0, f32(0.17554358), 1.0), (0.0, 0.0, 1.0), (0.0, 1.0, 1.0), (0.0, f32(0.9), 1.0)]
    near = [(0.0, f32(1e-6), 1.0), (0.0, f32(0.999), 1.0)]
    sorts = [(GIMP, SINUSOIDAL, waved, ends, rng), (GIMP_SAVED, CURVED, curved, ends + near, random.Random(42))]
    words.begin("waves", sum(len(sort[3]) for sort in sorts))
    for kind, blending, shown, segments, numbers in sorts:
        colour = lambda: tuple(f32(numbers.random()) for _ in range(4))
        for segment in segments:
            left, right = colour(), colour()
            points = [f32(i / 11) for i in range(1, 11)] + [segment[1]]
            words.put(kind, 3, 8, 2)
            words.floats(*segment, *left, *right)
            words.put(blending, 0, 0, len(points))
            for t in points:
                words.floats(t, *shown(segment, left, right, t))
            words.answered(1 + len(points))
