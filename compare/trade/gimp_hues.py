#!/usr/bin/env python3
"""gimp_hues.py FILE LINE: the two hues of a segment, in turns, worked out exactly, as GIMP rounds them and as the library does.
gimp_hues.py --twins FILE LINE FOLDER: that segment alone as a file, and twins of it: the left green some units of a double up
and down, every f32 the same, for each order of GIMP's two hues that comes of it.
gimp_hues.py --steps GIMPS FILE ..: GIMP's steps for segments by hue, in doubles, beside its own colours (gimp_colours.py has the
form of that text): at how many points they differ, and how far the library's steps are off with GIMP's greys and without.
gimp_hues.py --bound FILE ..: segments by hue whose two hues are nearer than rounding in f32 can tell, but are not equal in doubles.

docs/HSV.md, 'Where GIMP paints otherwise', has what comes of it."""
import math
import struct
import sys
from fractions import Fraction

from gimp_colours import read

GREY, PLAIN, RISING, INCREASING, DECREASING, STEP = 1e-4, 0, 1, 3, 4, 5


def single(x):
    return struct.unpack('f', struct.pack('f', x))[0]


def segments(path):
    """Line, the eleven numbers as texts, the codes."""
    lines = open(path, encoding='utf-8').read().split('\n')
    rows = [(4 + i, line.split()) for i, line in enumerate(lines[3:3 + int(lines[2])])]
    return [(line, words[:11], [int(word) for word in words[11:]]) for line, words in rows]


# ---- hue, saturation and value; `up` rounds each step, and a colour is a grey up to the spread `grey`

def there(colour, up, grey):
    r, g, b = colour
    most = max(colour)
    spread = up(most - min(colour))
    if spread <= grey:
        return 0, 0, most
    if r == most:
        sixths = up(up(g - b) / spread)
        sixths = up(sixths + 6) if sixths < 0 else sixths
    elif g == most:
        sixths = up(2 + up(up(b - r) / spread))
    else:
        sixths = up(4 + up(up(r - g) / spread))
    return sixths, up(spread / most), most


def gimps(colour):
    sixths, s, v = there(colour, lambda x: x, GREY)
    return sixths / 6, s, v


def ours(colour, grey=0):
    sixths, s, v = there([single(x) for x in colour], single, grey)
    return single(sixths * 60), s, v


def exact(colour):
    return there([Fraction(x) for x in colour], lambda x: x, 0)[0] / 6


def show(path, wanted):
    [words] = [words for line, words, _ in segments(path) if line == wanted]
    ends = words[3:6], words[7:10]
    doubles = [[float(x) for x in end] for end in ends]
    rules = {
        'six decimals, exactly': [exact([f'{float(x):.6f}' for x in end]) for end in ends],
        "the file's digits, exactly": [exact(end) for end in ends],
        'its doubles, exactly': [exact(end) for end in doubles],
        'as GIMP rounds them': [Fraction(gimps(end)[0]) for end in doubles],
        'the f32, exactly': [exact([single(x) for x in end]) for end in doubles],
        'as the library rounds them': [Fraction(ours(end)[0]) / 360 for end in doubles],
    }
    for rule, (left, right) in rules.items():
        print(f'{rule}: {float(left):.17g} and {float(right):.17g}, the left one less the right {float(left - right):.3g}')
    reach = sum(2 / gimps(end)[1] for end in doubles) * 2 ** -24 / 6
    print(f'how far rounding the channels to f32 can move that: {reach:.3g}')


def bound(paths):
    """A hue, in sixths, is off by at most (2/s + 13) 2^-24 in f32 (docs/HSV.md)."""
    found = set()
    for path in paths:
        for line, words, codes in segments(path):
            ends = [[float(x) for x in words[i:i + 3]] for i in (3, 7)]
            (left, s, _), (right, z, _) = (there([single(x) for x in end], lambda x: x, 0) for end in ends)
            apart = min(abs(left - right), 6 - abs(left - right))
            is_one = ends[0] == ends[1] or gimps(ends[0]) == gimps(ends[1])
            if codes[1] and codes[0] != STEP and s and z and not is_one and apart <= (2 / s + 2 / z + 26) * 2 ** -24:
                print(f'{path}:{line}: {apart / 6:.2e} of a turn')
                found.add(path)
    print(f'{len(found)} of {len(paths)} files')


def twins(path, wanted, folder):
    [(words, codes)] = [(words, codes) for line, words, codes in segments(path) if line == wanted]
    numbers = [float(x) for x in words]
    found = {}
    for units in sorted(range(-40, 41), key=abs):
        green = numbers[4]
        for _ in range(abs(units)):
            green = math.nextafter(green, math.copysign(math.inf, units))
        twin = [0, .5, 1] + numbers[3:4] + [green] + numbers[5:]
        left, right = gimps(twin[3:6])[0], gimps(twin[7:10])[0]
        found.setdefault((left > right) - (left < right), (units, twin))
    for order, (units, twin) in found.items():
        assert [single(x) for x in twin[3:]] == [single(x) for x in numbers[3:]]
        name = {-1: 'below', 0: 'equal', 1: 'above'}[order]
        print(f'{name}: {units} units')
        with open(f'{folder}/{name}.ggr', 'w', encoding='utf-8') as out:
            out.write(f'GIMP Gradient\nName: {name}\n1\n{" ".join(f"{x:.17g}" for x in twin)} 0 {codes[1]} 0 0\n')


# ---- a point of a segment: the factor, the way round, and back

def factor(x, segment, blending, up):
    left, middle, right = (up(number) for number in segment[:3])
    width = up(right - left)
    place, pivot = up(up(x - left) / width), up(up(middle - left) / width)
    t = up(up(.5 * place) / pivot) if place <= pivot else up(.5 + up(up(.5 * up(place - pivot)) / up(1 - pivot)))
    if blending == INCREASING:
        return up(math.sqrt(up(1 - up(up(t - 1) ** 2))))
    return up(1 - up(math.sqrt(up(1 - up(t * t))))) if blending == DECREASING else t


def turned(h1, h2, t, whole, rising, up):
    sign = 1 if rising else -1
    h1, h2 = sign * h1, sign * h2
    if h1 < h2:
        return sign * up(h1 + up(up(h2 - h1) * t))
    h = up(h1 + up(up(whole - up(h1 - h2)) * t))
    return sign * (up(h - whole) if h > (whole if rising else 0) else h)


def mixed(left, right, t, up):
    return [up(a + up(up(b - a) * t)) for a, b in zip(left, right)]


def gimps_colour(x, segment, blending, colouring):
    def same(number):
        return number
    t = factor(x, segment, blending, same)
    left, right = gimps(segment[3:6]), gimps(segment[7:10])
    h = turned(left[0], right[0], t, 1, colouring == RISING, same) * 6
    s, v = mixed(left[1:], right[1:], t, same)
    if s == 0:
        return v, v, v
    i = 0 if h == 6 else int(h)
    part = (0 if h == 6 else h) - i
    w, p, q = v * (1 - s), v * (1 - s * part), v * (1 - s * (1 - part))
    return [(v, q, w), (p, v, w), (w, v, q), (w, p, v), (q, w, v), (v, w, p)][i]


def our_colour(x, segment, blending, colouring, grey):
    t = factor(x, segment, blending, single)
    left, right = ours(segment[3:6], grey), ours(segment[7:10], grey)
    h = turned(left[0], right[0], t, 360, colouring == RISING, single)
    return back(h, *mixed(left[1:], right[1:], t, single))


def back(h, s, v):
    """docs/HSV.md, 'Back', for s and v within 0..1."""
    angle = math.fmod(h, 360)
    place = single(single(angle + 360 if angle < 0 else angle) / 60)
    light = single(single(single(2 - s) * v) / 2)
    if light in (0, 1):
        bare = s if light == 0 else 0
    else:
        bare = single(single(s * v) / single(light * 2 if light < .5 else single(2 - single(light * 2))))
    most = single(light * single(1 + bare)) if light < .5 else single(single(light + bare) - single(light * bare))
    least = single(2 * light - most)
    return tuple(channel(single(place + by), least, most) if bare else light for by in (2, 0, -2))


def channel(y, least, most):
    y = single(math.fmod(single(math.fmod(y, 6) + 6), 6))
    rise = single(most - least)
    if y < 1:
        value = single(least + single(rise * y))
    elif y < 3:
        value = most
    else:
        value = single(least + single(rise * single(4 - y))) if y < 4 else least
    return min(max(value, 0), 1)


def steps(seen, paths):
    for path in paths:
        differing, points, off = 0, 0, [0, 0]
        rows = [([float(x) for x in words], codes) for _, words, codes in segments(path)]
        for x, *colour in seen[path]:
            numbers, codes = next(row for row in rows if x <= row[0][2])
            if codes[1] and codes[0] in (PLAIN, INCREASING, DECREASING):
                points += 1
                differing += tuple(colour[:3]) != gimps_colour(x, numbers, *codes[:2])
                for i, grey in enumerate((single(GREY), 0)):
                    there_and_back = our_colour(x, numbers, *codes[:2], grey)
                    off[i] = max(off[i], *(abs(a - b) for a, b in zip(colour, there_and_back)))
        told = f"the library's steps off by {off[0]:.2e} with GIMP's greys, {off[1]:.2e} without"
        print(f"{path}: {points} points, GIMP's steps differ at {differing}; {told}")


if sys.argv[1] == '--twins':
    twins(sys.argv[2], int(sys.argv[3]), sys.argv[4])
elif sys.argv[1] == '--bound':
    bound(sys.argv[2:])
elif sys.argv[1] == '--steps':
    steps(read(sys.argv[2]), sys.argv[3:])
else:
    show(sys.argv[1], int(sys.argv[2]))
