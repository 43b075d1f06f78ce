#!/usr/bin/env python3
"""gimp_colours.py OURS GIMPS [TOLD]: how far the colours of GIMP files lie from GIMP's own, file by file.
gimp_colours.py --make FOLDER: writes the made-up files, of every blending carried and colouring by hue, of which docs/HSV.md tells.
gimp_colours.py --near FOLDER N: writes N files by hue on both sides of where GIMP paints otherwise: of colours nearly grey, of
nearly one hue, nearly within 0..1.

Both texts have this form: '== path', then 'position r g b a' for each point ('refused ..' where a file is not taken).
OURS is what `compare/run shown FILE ..` prints, GIMPS what GIMP 2.10 gave for the same files at the same points. The points
are (i + 0.5) / 256, which lie on no border of an ordinary file: at a border GIMP takes the right-hand segment, the Rust
and the library whichever their search tries first. For each file the greatest difference of a channel, and where it is.
TOLD is what `plume check FILE ..` said of the same files: how many of those that are off by more than 1e-4 it tells of, and
how many others; the status is 1 where it is silent on one."""
import random
import sys

WAYS = {1: 'up', 2: 'down'}
BLENDINGS = {0: 'linear', 2: 'sinusoidal', 3: 'increasing', 4: 'decreasing', 5: 'step'}


# ---- made-up files

def colour():
    return [random.random() for _ in range(4)]


def grey(value):
    return [value] * 3 + [1]


def outside():
    return [random.uniform(-.5, 2) for _ in range(3)] + [1]


def eighths():
    return [random.randrange(256) / 255 for _ in range(4)]


def same():
    c = colour()
    return c, c


def same_hue():
    c = colour()
    return c, [x * .5 for x in c[:3]] + [1]


def near_grey():
    value = random.random() * .9
    return [value, value + 5e-5, value, 1], colour()


PAIRS = {
    'equal': same,
    'hues_nearly_equal': same_hue,
    'grey_left': lambda: (grey(random.random()), colour()),
    'grey_right': lambda: (colour(), grey(random.random())),
    'near_grey': near_grey,
    'near_black': lambda: ([.00001, .00006, .00001, 1], colour()),
    'outside': lambda: (outside(), outside()),
    'bytes': lambda: (eighths(), eighths()),
}


def write(folder, name, segments, pair, codes):
    ends = sorted([0, 1] + [round(random.random(), 6) for _ in range(segments - 1)])
    with open(f'{folder}/{name}.ggr', 'w') as out:
        out.write(f'GIMP Gradient\nName: {name}\n{segments}\n')
        for left, right in zip(ends, ends[1:]):
            middle = left + (right - left) * random.uniform(.1, .9)
            numbers = [left, middle, right] + sum(pair(), [])
            out.write(' '.join(f'{x:.6f}' for x in numbers) + ' %d %d\n' % codes)


def make(folder):
    random.seed(28)
    for way, told in WAYS.items():
        for blending, name in BLENDINGS.items():
            for i in range(4):
                write(folder, f'{name}_{told}_{i}', random.randint(1, 6), lambda: (colour(), colour()), (blending, way))
        for name, pair in PAIRS.items():
            for i in range(2):
                write(folder, f'{name}_{told}_{i}', 3, pair, (0, way))


# ---- files near the borders

def nearly_grey():
    """Up to 0.0002 between two channels: about half of them are greys to GIMP."""
    value = 10 ** random.uniform(-4, 0) * .9
    return [value + random.uniform(0, 2e-4) * random.randrange(2) for _ in range(3)] + [1]


def nearly_one_hue():
    left = random.choice([colour, eighths])()
    right = [x * random.choice([.5, .3, 1]) * (1 + random.choice([0, 1e-16, 1e-12, 1e-8, 1e-7, 1e-6]) * random.uniform(-1, 1)) for x in left]
    return left, right


def nearly_inside():
    return [random.choice([0, 1]) + random.choice([0, 1e-5, 1e-3]) * random.uniform(-1, 1) for _ in range(3)] + [1]


NEAR = [
    lambda: (nearly_grey(), colour()),
    lambda: (colour(), nearly_grey()),
    lambda: (nearly_grey(), nearly_grey()),
    nearly_one_hue,
    lambda: (nearly_inside(), nearly_inside()),
    lambda: (colour(), colour()),
]


def near(folder, count):
    random.seed(42)
    for i in range(count):
        segments = []
        for pair in (random.choice(NEAR) for _ in range(3)):
            k = len(segments)
            digits = random.choice(['{:.6f}', '{:.17g}'])
            channels = [digits.format(x) for x in sum(map(list, pair()), [])]
            ends = [f'{x / 12:.17g}' for x in (4 * k, 4 * k + random.choice([2, 1, 3]), 4 * k + 4)]
            segments.append(' '.join(ends + channels + [str(random.choice([0, 0, 1, 2, 3, 4, 5])), random.choice('12'), '0', '0']))
        with open(f'{folder}/near_{i}.ggr', 'w') as out:
            out.write('\n'.join(['GIMP Gradient', f'Name: near {i}', '3'] + segments) + '\n')


# ---- the two texts

def read(path):
    files, name = {}, None
    for line in open(path):
        words = line.split()
        if words and words[0] == '==':
            name = line[3:].strip()
            files[name] = []
        elif words and words[0] == 'refused':
            files[name] = None
        elif name and len(words) == 5 and words[0] not in ('name', 'warning'):
            files[name].append([float(word) for word in words])
    return files


def compare(ours, gimps):
    """Prints how far each file is off, and gives the names of those by more than 1e-4."""
    off = set()
    for name in ours:
        if ours[name] is None or gimps.get(name) is None:
            print(f'{name}: ' + ('refused here' if ours[name] is None else 'refused by GIMP'))
            continue
        gaps = [(max(abs(a - b) for a, b in zip(x[1:], y[1:])), x[0]) for x, y in zip(ours[name], gimps[name])]
        gap, at = max(gaps)
        over = sum(1 for g, _ in gaps if g > 2e-5)
        print(f'{name}: {gap:.2e} at {at}, {over} of {len(gaps)} points by more than 2e-5')
        if gap > 1e-4:
            off.add(name)
    return off


def hold(names, off, said):
    """Whether what is off is told of."""
    told = {name for name in names if any(f'{name}:' in line and 'coloured by hue' in line for line in open(said))}
    for name in sorted(off - told):
        print(f'{name}: not told of')
    print(f'{len(names)} files, {len(off)} off by more than 1e-4: {len(off & told)} told of; of the others {len(told - off)}')
    return off <= told


def main():
    if sys.argv[1] == '--make':
        make(sys.argv[2])
    elif sys.argv[1] == '--near':
        near(sys.argv[2], int(sys.argv[3]))
    else:
        found = read(sys.argv[1])
        off = compare(found, read(sys.argv[2]))
        if len(sys.argv) > 3:
            sys.exit(not hold(found, off, sys.argv[3]))


if __name__ == '__main__':
    main()
