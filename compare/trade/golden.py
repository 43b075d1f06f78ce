#!/usr/bin/env python3
"""golden.py [--store]: the files of examples/golden, worked out of their lists by a reading of the formats of its own.

NAME.bits is the list of a ramp, as plume writes it and `flatten` prints lists: positions and channels as the bits of f32. All
other formats follow from it, and are worked out here in whole numbers and fractions, with nothing of plume's: `--store` writes
them, else they are compared. What is not here is what plume alone can say: the words on standard error, and the list itself.
"""
import struct
import sys
from decimal import ROUND_HALF_EVEN, Decimal
from fractions import Fraction
from pathlib import Path

GOLDEN = Path(__file__).resolve().parents[2] / 'examples/golden'


def of_bits(text):
    return struct.unpack('>f', bytes.fromhex(text))[0]


def f32(x):
    """The nearest f32 of a fraction, ties to even, by way of the neighbours of a double's."""
    near = struct.unpack('f', struct.pack('f', float(x)))[0]
    bits = struct.unpack('i', struct.pack('f', near))[0]
    around = [struct.unpack('f', struct.pack('i', bits + step))[0] for step in ((0,) if near == 0 else (-1, 0, 1))]
    even = {y: struct.unpack('i', struct.pack('f', y))[0] % 2 for y in around}
    return min(around, key=lambda y: (abs(Fraction(y) - Fraction(x)), even[y]))


def above(x):
    """The next f32."""
    if x == 0:
        return of_bits('00000001')
    bits = struct.unpack('i', struct.pack('f', x))[0]
    return struct.unpack('f', struct.pack('i', bits + 1 if x > 0 else bits - 1))[0]


def short(x):
    """The fewest digits that are read back, without an exponent."""
    for digits in range(1, 10):
        text = '%.*g' % (digits, x)
        if f32(Fraction(text)) == x:
            return format(Decimal(text), 'f') if x else '0'
    raise ValueError(x)


def nine(x):
    """Nine significant digits, a tie to even; 0 for nought."""
    if x == 0:
        return '0'
    exact = Decimal(x)
    for _ in range(2):
        written = exact.quantize(Decimal(1).scaleb(exact.adjusted() - 8), ROUND_HALF_EVEN)
        exact = written
    return format(written, 'f')


def byte(x):
    return round(Fraction(min(max(x, 0.0), 1.0)) * 255)


def hexed(colour):
    return '#' + ''.join('%02x' % byte(c) for c in colour[:3])


def edges(stops):
    """A stop at the next f32 stands at the position before it."""
    made = list(stops)
    for i in range(1, len(stops)):
        if stops[i][0] == above(stops[i - 1][0]):
            made[i] = (made[i - 1][0], stops[i][1])
    return made


def unit(stops):
    """Taken to 0..1."""
    first, last = Fraction(stops[0][0]), Fraction(stops[-1][0])
    return [(f32((Fraction(p) - first) / (last - first)), c) for p, c in stops]


def text(name, stops):
    lines = ['kind\tlinear']
    for i, (position, colour) in enumerate(stops):
        if 0 < abs(position) < 1e-6:
            position = stops[i - 1][0]
        lines.append('\t'.join(['stop', nine(position)] + [nine(c) for c in colour]))
    return lines


def ggr(name, stops):
    clamped = [(p if p >= 2e-6 else 0.0, [min(c, 1.0) if c >= 1e-6 else 0.0 for c in colour]) for p, colour in unit(edges(stops))]
    lines = ['GIMP Gradient', 'Name: ' + name, str(len(stops) - 1)]
    for (p, a), (q, b) in zip(clamped, clamped[1:]):
        middle = f32(Fraction(f32(Fraction(p) + Fraction(q))) / 2)
        lines.append(' '.join([nine(x) for x in [p, middle, q, *a, *b]] + ['0', '0']))
    return lines


def cpt(name, stops):
    lines = ['# ' + name, '# COLOR_MODEL = RGB']
    for (p, a), (q, b) in zip(edges(stops), edges(stops)[1:]):
        if p != q:
            lines.append(' '.join([short(p), *(str(byte(c)) for c in a[:3]), short(q), *(str(byte(c)) for c in b[:3])]))
    return lines


def gdal(name, stops):
    return [' '.join([short(p)] + [str(byte(c)) for c in colour]) for p, colour in edges(stops)]


def qgis(name, stops):
    rows = [','.join([short(p)] + [str(byte(c)) for c in colour] + [short(p)]) for p, colour in edges(stops)]
    return ['# QGIS Generated Color Map Export File', 'INTERPOLATION:INTERPOLATED'] + rows


def svg(name, stops):
    lines = ['<svg xmlns="http://www.w3.org/2000/svg" viewBox="0 0 512 64" role="img" aria-labelledby="title">',
             '<title id="title">%s</title>' % name, '<defs>', '<linearGradient id="ramp">']
    for p, colour in unit(edges(stops)):
        opacity = '' if byte(colour[3]) == 255 else ' stop-opacity="%.4f"' % (byte(colour[3]) / 255)
        lines.append('<stop offset="%s" stop-color="%s"%s/>' % (short(p), hexed(colour), opacity))
    return lines + ['</linearGradient>', '</defs>', '<rect width="512" height="64" fill="url(#ramp)"/>', '</svg>']


def css(name, stops):
    shown = []
    for p, colour in unit(edges(stops)):
        alpha = '' if byte(colour[3]) == 255 else '%02x' % byte(colour[3])
        shown.append('    %s%s %s%%' % (hexed(colour), alpha, short(f32(Fraction(p) * 100))))
    return [':root {', '  --%s: linear-gradient(to right,' % name, ',\n'.join(shown) + ');', '}']


def number(x):
    """As JSON: with an exponent where there would be many zeros."""
    if x and not 1e-6 <= abs(x) < 1e16:
        mantissa, exponent = ('%e' % Decimal(short(x))).split('e')
        return '%se%d' % (format(Decimal(mantissa).normalize(), 'f'), int(exponent))
    return short(x)


def json(name, stops):
    rows = []
    for p, colour in stops:
        rows.append('    {"position": %s, "color": [%s], "hex": "%s"}' % (number(p), ', '.join(map(number, colour)), hexed(colour)))
    ends = '  "domain": [%s, %s],' % (number(stops[0][0]), number(stops[-1][0]))
    return ['{', '  "name": "%s",' % name, '  "kind": "linear",', ends, '  "stops": [', ',\n'.join(rows), '  ]', '}']


FORMATS = {'tsv': text, 'ggr': ggr, 'cpt': cpt, 'gdal.txt': gdal, 'qgis.txt': qgis, 'svg': svg, 'css': css, 'json': json}


def main():
    if sys.argv[1:] not in ([], ['--store']):
        sys.exit(__doc__)
    wrong = compared = 0
    for bits in sorted(GOLDEN.glob('*.bits')):
        rows = [[of_bits(x) for x in line.split('\t')[1:]] for line in bits.read_text().splitlines()[1:]]
        stops = [(row[0], row[1:]) for row in rows]
        for ending, form in FORMATS.items():
            path, made = GOLDEN / ('%s.%s' % (bits.stem, ending)), '\n'.join(form(bits.stem, stops)) + '\n'
            if sys.argv[1:]:
                path.write_text(made)
            compared += 1
            if path.read_text() != made:
                wrong += 1
                print('%s differs' % path.name)
    print('%d files, %d differences' % (compared, wrong))
    sys.exit(1 if wrong else 0)


if __name__ == '__main__':
    main()
