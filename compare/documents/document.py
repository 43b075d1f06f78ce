"""Document 01's flattening of linear and smoothstep stops, worked out with Python's numbers. It knows nothing of the Rattle code.

An f32 is a float that `f32` has rounded. A sum, a product, a quotient or a root worked out in f64 and then rounded to f32
is as if rounded once, since 53 binary digits are more than twice 24 and two."""
import math
import struct
from bisect import bisect_left
from functools import lru_cache

from leaves import token

ONE, FOUR, WORD = struct.Struct("<f"), struct.Struct("<4f"), struct.Struct("<I")
CELLS, DEPTH = 36, 7
NEAR = 2.0 ** -23
NAN = 0x7FC00000


class Refusal(Exception):
    """One of the document's numbers."""


def f32(x):
    try:
        return ONE.unpack(ONE.pack(x))[0]
    except OverflowError:
        return math.copysign(math.inf, x)


def four(a, b, c, d):
    """Each of four rounded."""
    try:
        return FOUR.unpack(FOUR.pack(a, b, c, d))
    except OverflowError:
        return f32(a), f32(b), f32(c), f32(d)


def quotient(a, b):
    if b == 0 and a == a:
        return math.copysign(math.inf, a) * math.copysign(1.0, b) if a else math.nan
    return f32(a / b)


def bits_of(x):
    return NAN if x != x else WORD.unpack(ONE.pack(x))[0]


def float_of(bits):
    return ONE.unpack(WORD.pack(bits))[0]


@lru_cache(maxsize=1 << 16)
def number(text):
    """A token's number, or None."""
    answer = token(text)
    return None if answer == "no number" else float_of(int(answer, 16))


DEFAULT, LEAST, MOST, FARTHEST = number("0.007"), number("0.001"), number("0.035"), f32(1e38)


def linear(a, b, t):
    (a0, a1, a2, a3), (b0, b1, b2, b3) = a, b
    d0, d1, d2, d3 = four(b0 - a0, b1 - a1, b2 - a2, b3 - a3)
    p0, p1, p2, p3 = four(t * d0, t * d1, t * d2, t * d3)
    return four(a0 + p0, a1 + p1, a2 + p2, a3 + p3)


def smoothstep(a, b, t):
    (a0, a1, a2, a3), (b0, b1, b2, b3) = a, b
    bend = f32(3.0 - f32(t * 2.0))
    p0, p1, p2, p3 = four(b0 - a0, b1 - a1, b2 - a2, b3 - a3)
    for factor in (bend, t, t):
        p0, p1, p2, p3 = four(p0 * factor, p1 * factor, p2 * factor, p3 * factor)
    return four(p0 + a0, p1 + a1, p2 + a2, p3 + a3)


BLENDS = {"linear": linear, "smoothstep": smoothstep}


def clamped(c):
    return tuple(0.0 if x < 0 else 1.0 if x > 1 else x for x in c)


def difference(a, b):
    (a0, a1, a2, a3), (b0, b1, b2, b3) = a, b
    d0, d1, d2, d3 = four(a0 - b0, a1 - b1, a2 - b2, a3 - b3)
    r, g, b, a = four(d0 * d0, d1 * d1, d2 * d2, d3 * d3)
    return f32(f32(math.sqrt(f32(f32(f32(r + g) + b) + a))) / 2.0)


class Ramp:
    """Stops of a kind. `at` is worked out once for each t; the evaluations are counted by their rule, not by the calls."""

    def __init__(self, kind, positions, colours):
        self.kind, self.positions, self.colours, self.seen = kind, positions, colours, {}

    def check(self):
        if not 2 <= len(self.positions) <= 2048:
            raise Refusal(1)
        before = -math.inf
        for position, colour in zip(self.positions, self.colours):
            if not all(math.isfinite(x) for x in (position, *colour)):
                raise Refusal(2)
            if position < before:
                raise Refusal(3)
            before = position
        if abs(self.positions[0]) > FARTHEST or abs(self.positions[-1]) > FARTHEST:
            raise Refusal(4)

    def at(self, t):
        if t not in self.seen:
            self.seen[t] = self.fresh_at(t)
        return self.seen[t]

    def fresh_at(self, t):
        positions, colours = self.positions, self.colours
        if t <= positions[0]:
            return colours[0]
        if t >= positions[-1]:
            return colours[-1]
        k = bisect_left(positions, t)
        p, q = positions[k - 1], positions[k]
        return BLENDS[self.kind](colours[k - 1], colours[k], quotient(f32(t - p), f32(q - p)))

    def with_colour(self, k, colour):
        return Ramp(self.kind, self.positions, self.colours[:k] + [colour] + self.colours[k + 1:])


def threshold_of(asked):
    if not math.isfinite(asked):
        return DEFAULT
    return LEAST if asked < LEAST else MOST if asked > MOST else asked


def edge(ramp, i):
    low, high = ramp.positions[0], ramp.positions[-1]
    return f32(low + f32(f32(high - low) * f32(i / CELLS)))


def middle(t0, t1):
    return f32(f32(t0 + t1) / 2.0)


def halve(ramp, threshold, t0, t1, left):
    """The midpoints kept between t0 and t1, and how many stretches were tried."""
    if left == 0:
        return [], 0
    mid = middle(t0, t1)
    mix = clamped(linear(ramp.at(t0), ramp.at(t1), 0.5))
    if not difference(clamped(ramp.at(mid)), mix) > threshold:
        return [], 1
    before, tries = halve(ramp, threshold, t0, mid, left - 1)
    after, more = halve(ramp, threshold, mid, t1, left - 1)
    return before + [mid] + after, 1 + tries + more


def cell(ramp, threshold, i):
    t0, t1 = edge(ramp, i), edge(ramp, i + 1)
    mids, tries = halve(ramp, threshold, t0, t1, DEPTH)
    return [t0] + mids, 3 * tries


def sample(ramp, threshold):
    """The rows, each as long as its count, and the evaluations."""
    rows, evaluations = [], 0
    for i in range(CELLS):
        row, spent = cell(ramp, threshold, i)
        rows.append(row)
        evaluations += spent
    return rows, evaluations


def is_outside(positions, k, t):
    last = len(positions) - 1
    if k == 0:
        return t > positions[1]
    if k == last:
        return t <= positions[k - 1] and t < positions[k]
    return t <= positions[k - 1] or t > positions[k + 1]


def mids(t0, t1, left):
    if left:
        mid = middle(t0, t1)
        yield mid
        yield from mids(t0, mid, left - 1)
        yield from mids(mid, t1, left - 1)


def refresh(old, k, colour, threshold, rows):
    """The rows once stop k of the old ramp has the colour, and the evaluations; cells clear of the change keep theirs."""
    changed, fresh, evaluations = old.with_colour(k, colour), [], 0
    for i in range(CELLS):
        t0, t1 = edge(old, i), edge(old, i + 1)
        points = (t for part in ((t0, t1), mids(t0, t1, DEPTH)) for t in part)
        if all(is_outside(old.positions, k, t) for t in points):
            fresh.append(rows[i])
        else:
            row, spent = cell(changed, threshold, i)
            fresh.append(row)
            evaluations += spent
    return fresh, evaluations


def thin(ramp, threshold, rows, room):
    """The positions and colours kept, and the evaluations."""
    points = [t for row in rows for t in row] + [ramp.positions[-1]]
    kept, last, weighed = [points[0]], points[0], 0
    for t, after in zip(points[1:-1], points[2:]):
        if abs(f32(last - t)) < NEAR:
            continue
        weighed += 1
        share = quotient(f32(t - last), f32(after - last))
        predicted = clamped(linear(ramp.at(last), ramp.at(after), share))
        if difference(clamped(ramp.at(t)), predicted) > threshold:
            kept.append(t)
            last = t
    kept.append(points[-1])
    before = -math.inf
    for n, t in enumerate(kept):
        if n == room:
            raise Refusal(7)
        if not all(math.isfinite(x) for x in (t, *ramp.at(t))):
            raise Refusal(8)
        if t < before:
            raise Refusal(9)
        before = t
    return kept, [ramp.at(t) for t in kept], 3 * weighed + len(kept)
