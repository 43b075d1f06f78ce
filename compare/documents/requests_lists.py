"""Lists as GIMP files, verdicts on lists made elsewhere, and lists one stop at a time."""
import math

from document import NEAR, Ramp, Refusal, bits_of, clamped, difference, f32, linear, quotient, sample, thin, threshold_of
from leaves import numeral

KINDS = ["linear", "smoothstep"]
MOST_WRITTEN, MOST_LISTED = 257, 4609
YES, LENGTH, STOP, FIRST, LAST, FAR, REFUSED = range(7)
BLACK, WHITE = (0.0, 0.0, 0.0, 1.0), (1.0, 1.0, 1.0, 1.0)


# ---- (v) a list as a GIMP file

def file_of(positions, colours, room):
    """The text; or the number of the refusal, and whether it leaves zeros."""
    if not 2 <= len(positions) <= MOST_WRITTEN:
        raise Refusal(1, False)
    if any(q < p for p, q in zip(positions, positions[1:])):
        raise Refusal(3, False)
    lines = []
    for p, q, left, right in zip(positions, positions[1:], colours, colours[1:]):
        texts = [numeral(bits_of(x)) for x in (p, f32(f32(p + q) / 2.0), q, *left, *right)]
        if "" in texts:
            raise Refusal(19, True)
        lines.append(" ".join(texts + ["0", "0"]))
    if positions[0] != 0 or positions[-1] != 1:
        raise Refusal(19, True)
    text = "\n".join(["GIMP Gradient", "Name: flattened", str(len(lines)), *lines, ""])
    if len(text) > room:
        raise Refusal(7, True)
    return text


def written(words, rng):
    grey = lambda x: (f32(x), f32(x), f32(x), 1.0)
    many = [f32(i / 9) for i in range(10)]
    cases = [
        ([0.0, 1.0], [BLACK, WHITE], 2000),
        ([0.0, 1.0], [BLACK, WHITE], 122),
        ([0.0, 1.0], [BLACK, WHITE], 121),
        ([-0.0, 0.5, 0.5, 1.0], [BLACK, grey(-0.25), grey(0.75), WHITE], 2000),
        (many, [tuple(f32(rng.random()) for _ in range(4)) for _ in many], 2000),
        ([0.0, f32(1e-6), 1.0], [BLACK, grey(0.5), WHITE], 2000),
        ([0.0, 0.25, 1.0], [BLACK, grey(1e-7), WHITE], 2000),
        ([0.0, 1.0], [BLACK, grey(math.nan)], 2000),
        ([0.0, 0.75, 0.25, 1.0], [BLACK, grey(1e9), WHITE, WHITE], 2000),
        ([0.0, 0.5], [BLACK, WHITE], 2000),
        ([1.0], [WHITE], 2000),
    ]
    words.begin("written", len(cases))
    for positions, colours, room in cases:
        rubbish = [7] * room
        try:
            text = file_of(positions, colours, room)
            refusal, left = 0, list(text.encode()) + rubbish[len(text):]
        except Refusal as refused:
            refusal, zeros = refused.args
            text, left = "", [0] * room if zeros else rubbish
        shown = min(room, len(text) + 9)
        words.put(len(positions), 4 * len(positions), room)
        words.floats(*positions, *(x for colour in colours for x in colour))
        words.put(refusal, len(text), shown, *left[:shown])
        words.answered(2)


# ---- (xi) a list made elsewhere

def verdict(ramp, asked, positions, colours):
    """The verdict with what it names: a stop; or a row, an index and the bits of t; or the refusal."""
    try:
        ramp.check()
    except Refusal as refused:
        return REFUSED, refused.args[0], 0, 0
    if not 2 <= len(positions) <= MOST_LISTED:
        return LENGTH, 0, 0, 0
    for i, (p, colour) in enumerate(zip(positions, colours)):
        if not all(map(math.isfinite, (p, *colour))) or i and p < positions[i - 1]:
            return STOP, i, 0, 0
    if positions[0] != ramp.positions[0]:
        return FIRST, 0, 0, 0
    if positions[-1] != ramp.positions[-1]:
        return LAST, 0, 0, 0
    offered, threshold = Ramp("linear", positions, colours), threshold_of(asked)
    rows = sample(ramp, threshold)[0] + [[ramp.positions[-1]]]
    for row, points in enumerate(rows):
        for index, t in enumerate(points):
            if not difference(clamped(offered.at(t)), clamped(ramp.at(t))) <= threshold:
                return FAR, row, index, bits_of(t)
    return YES, 0, 0, 0


def verdicts(words, rng):
    colour = lambda: tuple(f32(rng.random()) for _ in range(4))
    three = Ramp("linear", [0.0, f32(0.3), 1.0], [colour() for _ in range(3)])
    curve = Ramp("smoothstep", [-1.0, 2.0, 4.0], [colour() for _ in range(3)])
    fallen = Ramp("linear", [0.0, 1.0, 0.5], [BLACK, WHITE, BLACK])
    own = lambda ramp, asked: thin(ramp, threshold_of(asked), sample(ramp, threshold_of(asked))[0], MOST_LISTED)[:2]
    moved = [(f32(three.colours[2][0] + 0.5), *three.colours[2][1:])]
    cases = [
        (three, 0.007, three.positions, three.colours),
        (three, 0.007, *own(three, 0.007)),
        (curve, 0.035, *own(curve, 0.001)),
        (curve, 0.001, curve.positions, curve.colours),
        (three, math.nan, three.positions, three.colours[:2] + moved),
        (three, 0.007, three.positions[:1], three.colours[:1]),
        (three, 0.007, [0.0, math.inf, 1.0], three.colours),
        (three, 0.007, [0.0, 0.5, 0.25, 1.0], three.colours + [WHITE]),
        (three, 0.007, [f32(0.1), 1.0], [BLACK, WHITE]),
        (three, 0.007, [-0.0, 0.5], [BLACK, WHITE]),
        (fallen, 0.007, [0.0], [BLACK]),
    ]
    words.begin("verdicts", len(cases))
    for ramp, asked, positions, colours in cases:
        words.ramp(ramp)
        words.floats(asked)
        words.put(len(positions), 4 * len(positions))
        words.floats(*positions, *(x for one in colours for x in one))
        words.put(*verdict(ramp, asked, positions, colours))
        words.answered(1)


# ---- (xiii) one stop at a time

def steps(words, rng):
    """Each stop of the list with the evaluations of its step: 3 for each point weighed since the stop before, and 1."""
    colour = lambda: tuple(f32(rng.random()) for _ in range(4))
    ramps = [Ramp(kind, places, [colour() for _ in places]) for kind in KINDS for places in ([0.0, 1.0], [0.0, f32(0.2), f32(0.2), f32(0.9), 1.0], [-7.0, 3.0, 50.0])]
    words.begin("steps", len(ramps))
    for ramp in ramps:
        asked = rng.choice([0.007, 0.035, math.inf])
        threshold = threshold_of(asked)
        rows = sample(ramp, threshold)[0]
        kept, colours, evaluations = thin(ramp, threshold, rows, MOST_LISTED)
        spent = weighed(ramp, threshold, rows, kept)
        assert sum(spent) == evaluations
        words.ramp(ramp)
        words.floats(asked)
        words.put(len(kept))
        for t, colour_there, count in zip(kept, colours, spent):
            words.floats(t, *colour_there)
            words.put(count)
        words.answered(len(kept) + 2)


def weighed(ramp, threshold, rows, kept):
    """The evaluations of each step, by the points between the stop before and its own."""
    points = [t for row in rows for t in row] + [ramp.positions[-1]]
    spent, last, count = [1], points[0], 0
    for t, after in zip(points[1:-1], points[2:]):
        if abs(f32(last - t)) < NEAR:
            continue
        count += 3
        predicted = clamped(linear(ramp.at(last), ramp.at(after), quotient(f32(t - last), f32(after - last))))
        if difference(clamped(ramp.at(t)), predicted) > threshold:
            spent.append(count + 1)
            last, count = t, 0
    return spent + [count + 1]
