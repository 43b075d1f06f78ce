#!/usr/bin/env python3
"""formats.py PLUME [N] [FOLDER]: the texts that the Python package writes beside those of the program `plume`, byte for byte.

N random ramps (100) of five kinds, with jumps, alpha, channels outside 0 to 1 and domains of every size; of each the published
list and the one that keeps its word, in all nine formats. Then every GMT colour table below FOLDER, read by both. PLUME is the
program; the library is the one that `./library` makes ($GUINEAPLUME_LIB names another folder)."""
import os
import random
import subprocess
import sys
import tempfile
from pathlib import Path

ROOT = Path(__file__).resolve().parents[2]
os.environ.setdefault('GUINEAPLUME_LIB', str(ROOT / 'target' / 'library'))
sys.path.insert(0, str(ROOT / 'bindings' / 'python' / 'src'))

from guineaplume import List, Ramp, Refusal, Unread

NAMED = ['ggr', 'cpt', 'svg', 'css', 'json']
FORMATS = ['text', 'bits', 'qgis', 'gdal', *NAMED]
KINDS = ['linear', 'smoothstep', 'sharp', 'basis', 'catmull-rom']
DOMAINS = [(0, 1), (-6000, 0), (0, 0.003), (-1, 1), (1e-7, 1), (100, 1e6)]


def digits(x):
    return f'{x:.11f}'.rstrip('0').rstrip('.')


def some_ramp(chance):
    """A ramp as the tool's text."""
    count, (least, most) = chance.choice([2, 4, 8, 16]), chance.choice(DOMAINS)
    places = [least, *sorted(chance.uniform(least, most) for _ in range(count - 2)), most]
    if count > 2 and chance.random() < 0.3:
        places[2] = places[1]
    channel = lambda: chance.choice([chance.random(), chance.random(), round(chance.random(), 2), 0, 1, 1.5, -0.2, 3e-7])
    is_clear = chance.random() < 0.5
    rows = [(place, channel(), channel(), channel(), chance.random() if is_clear else 1) for place in places]
    lines = ['\t'.join(['stop', *map(digits, row)]) for row in rows]
    return '\n'.join([f'kind\t{chance.choice(KINDS)}', *lines, ''])


def own(listed, to):
    """Nothing where it is refused."""
    try:
        write = getattr(listed, f'to_{to}')
        return (write('case') if to in NAMED else write()).encode()
    except ValueError:
        return b''


def said(plume, *words):
    return subprocess.run([plume, *map(str, words)], capture_output=True).stdout


def compare_ramps(plume, count, folder):
    chance, file, differences = random.Random(1), folder / 'case.tsv', 0
    for case in range(count):
        file.write_text(some_ramp(chance))
        ramp = Ramp.from_text(file)
        for listed, words in [(ramp.within(), []), (ramp.flatten(), ['--published'])]:
            for to in FORMATS:
                if own(listed, to) != said(plume, 'flatten', file, '--to', to, *words):
                    differences += 1
                    print(f'case {case}, {to} {words}: the two differ; its ramp:\n{file.read_text()}')
    print(f'{count} ramps, {2 * len(FORMATS) * count} texts, {differences} differences')
    return differences


def compare_tables(plume, files):
    read = differences = 0
    for file in files:
        try:
            ramp = Ramp.from_cpt(file)
            text = List(ramp.positions, ramp.colours).to_bits().encode()
            read += 1
        except (Refusal, Unread):
            text = b''
        if text != said(plume, 'convert', file, '--to', 'bits'):
            differences += 1
            print(f'{file}: the two differ')
    print(f'{len(files)} colour tables, {read} read, {differences} differences')
    return differences


def main():
    plume = str(Path(sys.argv[1]).resolve())
    with tempfile.TemporaryDirectory() as folder:
        differences = compare_ramps(plume, int(sys.argv[2]) if len(sys.argv) > 2 else 100, Path(folder))
    if len(sys.argv) > 3:
        differences += compare_tables(plume, sorted(Path(sys.argv[3]).rglob('*.cpt')))
    sys.exit(differences > 0)


if __name__ == '__main__':
    main()
