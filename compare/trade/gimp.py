#!/usr/bin/env python3
"""compare/trade/gimp.py PAINT FOLDER: whether GIMP takes the .ggr files in FOLDER (compare/run gimp FOLDER makes them), names them
`flattened`, and paints them as they are written. PAINT is a program that prints, for files handed to it, "== path",
'name "NAME"' or "refused ..", and lines "position r g b a" at the positions given by --at.

A sample is compared with the straight line between the segment's two colours, worked out in doubles from the text; positions
are k/256 of each file's domain, those at a border left out."""
import glob, struct, subprocess, sys

paint, folder = sys.argv[1:3]
single = lambda x: struct.unpack('f', struct.pack('f', x))[0]


def segments(path):
    lines = open(path).read().split('\n')
    rows = [[float(x) for x in line.split(' ')] for line in lines[3:-1]]
    assert lines[:2] == ['GIMP Gradient', 'Name: flattened'] and int(lines[2]) == len(rows) and lines[-1] == ''
    assert all(len(row) == 13 for row in rows)
    return rows


def colour(rows, t):
    row = next(r for r in rows if r[0] < t < r[2])
    left, middle, right = row[:3]
    place, centre = (t - left) / (right - left), (middle - left) / (right - left)
    factor = place / centre / 2 if place <= centre else 0.5 + (place - centre) / (1 - centre) / 2
    return [a + factor * (b - a) for a, b in zip(row[3:7], row[7:11])]


paths = sorted(glob.glob(folder + '/*.ggr'))
at = [single(k / 256) for k in range(1, 256)]
count, samples, far = 0, 0, 0.0
for start in range(0, len(paths), 50):
    part = paths[start:start + 50]
    out = subprocess.run([paint, '--at', ','.join(map(repr, at))] + part, capture_output=True, text=True, check=True).stdout
    for block in out.split('== ')[1:]:
        lines = block.strip().split('\n')
        rows = segments(lines[0])
        if lines[1] != 'name "flattened"':
            sys.exit(f'{lines[0]}: {lines[1]}')
        count += 1
        borders = {x for row in rows for x in (row[0], row[2])}
        for line in lines[2:]:
            words = line.split()
            if words[0] == 'warning':
                sys.exit(f'{lines[0]}: {line}')
            t, *seen = map(float, words)
            if t in borders or any(r[0] < t < r[2] and r[2] - r[0] < 2 ** -22 for r in rows):
                continue
            gap = max(abs(a - b) for a, b in zip(seen, colour(rows, t)))
            samples, far = samples + 1, max(far, gap)
            if gap > 1e-6:
                sys.exit(f'{lines[0]} at {t}: off by {gap}')
print(f'{count} of {len(paths)} files loaded, each named flattened; {samples} samples, the farthest off by {far:.2g}')
