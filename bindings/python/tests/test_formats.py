"""Lists out: each format as it must be, read back, and beside the tool."""

import json
import math
import random
import unittest
from array import array

import header
from guineaplume import List, Ramp, Reason, Refusal, desk
from guineaplume.numerals import above, f32, nine_digits, short, stretched

EXAMPLES = header.ROOT / 'examples'

# a jump at 0.5, alpha, and channels outside 0 to 1
SHELF = List([0, 0.5, 0.5, 1], ['#081030', (0.25, 0.5, 1.5), '#ff000080', (1, -1, 0.1)])

BITS = """\
stops\t4\tevaluations\t0
stop\t00000000\t3d008081\t3d808081\t3e40c0c1\t3f800000
stop\t3f000000\t3e800000\t3f000000\t3fc00000\t3f800000
stop\t3f000000\t3f800000\t00000000\t00000000\t3f008081
stop\t3f800000\t3f800000\tbf800000\t3dcccccd\t3f800000
"""
GGR = """\
GIMP Gradient
Name: shelf
3
0 0.250000000 0.500000000 0.0313725509 0.0627451017 0.188235298 1.00000000 0.250000000 0.500000000 1.00000000 1.00000000 0 0
0.500000000 0.500000000 0.500000000 0.250000000 0.500000000 1.00000000 1.00000000 1.00000000 0 0 0.501960814 0 0
0.500000000 0.750000000 1.00000000 1.00000000 0 0 0.501960814 1.00000000 0 0.100000001 1.00000000 0 0
"""
CPT = '# shelf\n# COLOR_MODEL = RGB\n0 8 16 48 0.5 64 128 255\n0.5 255 0 0 1 255 0 26\n'
METRES = '# ramp\n# COLOR_MODEL = RGB\n-200 8 16 48 -100 64 128 255\n-100 255 0 0 0 255 0 26\n'
GDAL = '0 8 16 48 255\n0.5 64 128 255 255\n0.5 255 0 0 128\n1 255 0 26 255\n'
QGIS = """\
# QGIS Generated Color Map Export File
INTERPOLATION:INTERPOLATED
0,8,16,48,255,0
0.5,64,128,255,255,0.5
0.5,255,0,0,128,0.5
1,255,0,26,255,1
"""
SVG = """\
<svg xmlns="http://www.w3.org/2000/svg" viewBox="0 0 512 64" role="img" aria-labelledby="title">
<title id="title">shelf &amp; slope</title>
<defs>
<linearGradient id="ramp">
<stop offset="0" stop-color="#081030"/>
<stop offset="0.5" stop-color="#4080ff"/>
<stop offset="0.5" stop-color="#ff0000" stop-opacity="0.5020"/>
<stop offset="1" stop-color="#ff001a"/>
</linearGradient>
</defs>
<rect width="512" height="64" fill="url(#ramp)"/>
</svg>
"""
CSS = """\
:root {
  --shelf---slope: linear-gradient(to right,
    #081030 0%,
    #4080ff 50%,
    #ff000080 50%,
    #ff001a 100%);
}
"""


class Formats(unittest.TestCase):
    def test_each_format(self):
        self.assertEqual(SHELF.to_bits(), BITS)
        self.assertEqual(SHELF.to_ggr('shelf'), GGR)
        self.assertEqual(SHELF.to_cpt('shelf'), CPT)
        self.assertEqual(SHELF.to_cpt(domain=(-200, 0)), METRES)
        self.assertEqual(SHELF.to_gdal(), GDAL)
        self.assertEqual(SHELF.to_qgis(), QGIS)
        self.assertEqual(SHELF.to_svg('shelf & slope'), SVG)
        self.assertEqual(SHELF.to_css('shelf & slope'), CSS)

    def test_json(self):
        told = json.loads(SHELF.to_json('"shelf"\n'))
        self.assertEqual((told['name'], told['kind'], told['domain']), ('"shelf"\n', 'linear', [0, 1]))
        self.assertEqual([stop['hex'] for stop in told['stops']], ['#081030', '#4080ff', '#ff0000', '#ff001a'])
        self.assertEqual([array('f', stop['color']) for stop in told['stops']], [array('f', c) for c in SHELF.colours])

    def test_what_is_written_is_read_back(self):
        with self.assertWarnsRegex(UserWarning, 'a channel is 1.5'):
            self.assertEqual(Ramp.from_text(SHELF.to_text().encode()), SHELF.to_ramp())
        sea = Ramp.linear([-6000, -200, 0], ['#081030', '#4a90c0', '#d8f0f8'])
        self.assertEqual(Ramp.from_cpt(sea.within().to_cpt().encode()), sea)
        read = Ramp.from_ggr(sea.within().to_ggr('deep').encode())
        self.assertEqual((read.name, read(0.5).to_hex()), ('deep', sea(-3000).to_hex()))

    def test_bits_are_those_of_the_tool(self):
        for name, threshold in [('depths', 0.007), ('shelf', 0.01), ('lost-band', 0.007)]:
            listed = Ramp.from_text(EXAMPLES / f'{name}.tsv').flatten(threshold)
            self.assertEqual(listed.to_bits().encode(), (EXAMPLES / 'printed' / f'{name}.txt').read_bytes())
            self.assertEqual(listed.to_bits().encode(), desk((EXAMPLES / f'{name}.tsv').read_bytes()))

    def test_what_nobody_sees(self):
        edge = List([0, 2.0**-149, 1], ['#000', '#fff', (3e-8, 1e-30, 0)])
        white, dark = edge.to_text().splitlines()[2:]
        self.assertEqual(white, 'stop\t0' + 4 * '\t1.00000000')
        self.assertEqual(dark, 'stop\t1.00000000\t0.00000003\t0\t0\t1.00000000')

    def test_what_cannot_be_written(self):
        with self.assertRaises(Refusal) as caught:
            List([0, 1], ['#000', (1e30, 0, 0)]).to_text()
        self.assertEqual(caught.exception.number, Reason.UNWRITABLE)
        with self.assertRaises(Refusal) as caught:
            List([i / 299 for i in range(300)], ['#000'] * 300).to_ggr()
        self.assertEqual(caught.exception.number, Reason.MISSHAPEN)
        together = List([3, 3], ['#000', '#fff'])
        for write in (together.to_ggr, together.to_cpt):
            with self.assertRaises(ValueError):
                write()
        for misshapen in (List([], []), List([0, 1], ['#000'])):
            with self.assertRaises(Refusal):
                misshapen.to_gdal()


class Numbers(unittest.TestCase):
    def test_the_fewest_digits(self):
        for number, text in {0.1: '0.1', 1 / 3: '0.33333334', 16777216: '16777216', 59.5703125: '59.570313'}.items():
            self.assertEqual(short(f32(number)), text)
        chance = random.Random(1)
        for _ in range(2000):
            x = f32(chance.uniform(-1, 1) * 10 ** chance.randint(-44, 38))
            self.assertEqual(f32(float(short(x))), x)
            self.assertEqual(f32(float(nine_digits(x))), x)

    def test_stretching_keeps_ends_and_edges(self):
        first, second, third, last = stretched([0.0, f32(0.389), above(f32(0.389)), 1.0], (-6000, 0))
        self.assertEqual((first, third, last), (-6000.0, above(second), 0.0))
        crowd = [1.0]
        for _ in range(8):
            crowd.append(above(crowd[-1]))
        taken = stretched(crowd, (1e6, 1e6 + 0.125))
        self.assertEqual((taken, taken[-1]), (sorted(taken), 1e6 + 0.125))
        for domain in [(1, 0), (0, 0), (0, math.inf), (math.nan, 1)]:
            with self.assertRaises(ValueError):
                stretched(crowd, domain)
        self.assertEqual([above(0.0), above(-0.0)], [2.0**-149] * 2)
        self.assertEqual(above(above(-(2.0**-149))), 2.0**-149)


if __name__ == '__main__':
    unittest.main()
