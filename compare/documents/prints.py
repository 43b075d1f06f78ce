#!/usr/bin/env python3
"""Works document 01's proof prints out, and compares them line by line with crates/prints/stdout.

Written from document 01 and the published source; it knows nothing of the Rattle code. `compare/documents/prints.py` ends with
status 1 where a line differs."""
import math
import sys
from pathlib import Path

sys.dont_write_bytecode = True

from document import CELLS, DEFAULT, NEAR, Ramp, Refusal, bits_of, f32, float_of, linear, quotient, sample, smoothstep, thin
from leaves import root, token

STORED = Path(__file__).resolve().parents[2] / "crates/prints/stdout"


def red(x):
    return (x, 0.0, 0.0, 1.0)


def hexes(*numbers):
    return " ".join(f"{bits_of(x):08x}" for x in numbers)


def basis(t, v0, v1, v2, v3):
    t2 = f32(t * t)
    t3 = f32(t2 * t)
    weights = [
        f32(f32(f32(1.0 - f32(3.0 * t)) + f32(3.0 * t2)) - t3),
        f32(f32(4.0 - f32(6.0 * t2)) + f32(3.0 * t3)),
        f32(f32(f32(1.0 + f32(3.0 * t)) + f32(3.0 * t2)) - f32(3.0 * t3)),
        t3,
    ]
    total = None
    for weight, v in zip(weights, (v0, v1, v2, v3)):
        part = f32(weight * v)
        total = part if total is None else f32(total + part)
    return f32(total / 6.0)


def root_of(x):
    return float_of(root(bits_of(x)))


def catmull_rom(t, v0, v1, v2, v3):
    t0 = 0.0
    t1 = f32(t0 + root_of(abs(f32(v0 - v1))))
    t2 = f32(t1 + root_of(abs(f32(v1 - v2))))
    t3 = f32(t2 + root_of(abs(f32(v2 - v3))))

    def chord(v, w, s, u):
        return quotient(f32(v - w), f32(s - u))

    width = f32(t2 - t1)
    m1 = f32(width * f32(f32(chord(v0, v1, t0, t1) - chord(v0, v2, t0, t2)) + chord(v1, v2, t1, t2)))
    m2 = f32(width * f32(f32(chord(v1, v2, t1, t2) - chord(v1, v3, t1, t3)) + chord(v2, v3, t2, t3)))
    m1, m2 = (0.0 if m != m else m for m in (m1, m2))
    a = f32(f32(f32(f32(2.0 * v1) - f32(2.0 * v2)) + m1) + m2)
    b = f32(f32(f32(f32(-3.0 * v1) + f32(3.0 * v2)) - f32(2.0 * m1)) - m2)
    s2 = f32(t * t)
    s3 = f32(s2 * t)
    return f32(f32(f32(f32(a * s3) + f32(b * s2)) + f32(m1 * t)) + v1)


def sharp_positions(n, low, high, softness):
    soft = min(max(softness, 0.0), 1.0) if math.isfinite(softness) else f32(0.1)
    inset = f32(f32(f32(soft * f32(high - low)) / n) / 4.0)
    points = [f32(low + f32(f32(i * f32(high - low)) / f32(n + 1.0 - 1.0))) for i in range(n + 1)]
    out = []
    for i in range(n):
        out += [points[i], points[i + 1]]
    return [out[0]] + [f32(x - inset) if j % 2 else f32(x + inset) for j, x in list(enumerate(out))[1:-1]] + [out[-1]]


def linear_factor(middle, place):
    if place <= middle:
        return 0.0 if middle < NEAR else f32(f32(0.5 * place) / middle)
    rest = f32(1.0 - middle)
    return 1.0 if rest < NEAR else f32(0.5 + f32(f32(0.5 * f32(place - middle)) / rest))


def gimp(segments, t):
    """A segment is left, middle and right position, left and right red, blended linearly."""
    low, high, tried = 0, len(segments), 0
    while low < high:
        tried = (low + high) // 2
        if t > segments[tried][2]:
            low = tried + 1
        elif t < segments[tried][0]:
            high = tried
        else:
            break
    left, middle, right, p, q = segments[tried]
    length = f32(right - left)
    if length < NEAR:
        middle = place = 0.5
    else:
        middle, place = f32(f32(middle - left) / length), f32(f32(t - left) / length)
    return linear(red(p), red(q), linear_factor(middle, place))[0]


def pair():
    ramp = Ramp("linear", [0.5, 0.5], [red(0.25), red(0.75)])
    ramp.check()
    rows, spent = sample(ramp, DEFAULT)
    assert len(rows) == CELLS
    positions, colours, evaluations = thin(ramp, DEFAULT, rows, 2)
    channels = [x for colour in colours for x in colour]
    return f"{len(positions)} stops, {spent + evaluations} evaluations, positions {hexes(*positions)}, channels {hexes(*channels)}"


def stops(n):
    ramp = Ramp("linear", [0.5] * n, [(0.25,) * 4] * n)
    try:
        ramp.check()
    except Refusal as refusal:
        return f"refused {refusal}"
    return hexes(ramp.at(0.5)[0])


def count(n):
    """Line 3 counts n segments, and there are 257 lines for them and room."""
    return f"read {n}" if n <= 256 else "refused 15 line 3"


def prints():
    black, white = red(0.0), (1.0,) * 4
    return [
        ("linear 0 to 1 at 0.25", hexes(linear(black, white, 0.25)[0])),
        ("smoothstep 0 to 1 at 0.25", hexes(smoothstep(black, white, 0.25)[0])),
        ("basis 0, 1 at 0.5", hexes(basis(0.5, -1.0, 0.0, 1.0, 2.0))),
        ("Catmull-Rom 0, 1 at 0.25", hexes(catmull_rom(0.25, -1.0, 0.0, 1.0, 2.0))),
        ("sharp, 2 colours, softness 0.5 on 0..1", "positions " + hexes(*sharp_positions(2, 0.0, 1.0, 0.5))),
        ("root of 2", f"{root(0x40000000):08x}"),
        ("root of 2^-149", f"{root(1):08x}"),
        ("0.1", token("0.1")),
        ("16777217", token("16777217")),
        ("GIMP 0..0.5 and 0.5..1 at 0.5", hexes(gimp([(0.0, 0.25, 0.5, 0.0, 0.25), (0.5, 0.75, 1.0, 0.75, 1.0)], 0.5))),
        ("GIMP middle 0.25 at 0.625", hexes(gimp([(0.0, 0.25, 1.0, 0.0, 1.0)], 0.625))),
        ("GIMP gap 0.25..0.75 at 0.5", hexes(gimp([(0.0, 0.125, 0.25, 0.0, 1.0), (0.75, 0.875, 1.0, 0.0, 1.0)], 0.5))),
        ("two stops at 0.5", pair()),
        ("2048 stops", stops(2048)),
        ("2049 stops", stops(2049)),
        ("18 digits", token("123456789012345678")),
        ("19 digits", token("1234567890123456789")),
        ("count 256", count(256)),
        ("count 257", count(257)),
    ]


def main():
    ours = STORED.read_text().splitlines()
    theirs = ["\t".join(line) for line in prints()]
    differences = [(a, b) for a, b in zip(ours, theirs) if a != b]
    for a, b in differences:
        print(f"stored: {a}\nhere:   {b}")
    print(f"{len(theirs)} prints, {len(ours)} stored, {len(differences)} differences")
    sys.exit(1 if differences or len(ours) != len(theirs) else 0)


if __name__ == "__main__":
    main()
