"""Files in: GIMP gradients, GMT colour tables, the tool's text."""

import tempfile
import unittest
from pathlib import Path

import header
from guineaplume import Colour, Kind, Ramp, Reason, Refusal, Unread

GGR = b'GIMP Gradient\nName: Shelf\n2\n0 .2 .5 0 0 0 1 1 1 1 1 0 0\n.5 .7 1 1 1 1 1 0 0 0 1 2 1\n'


class Files(unittest.TestCase):
    def refused(self, number, line, read, *given):
        with self.assertRaises(Refusal) as caught:
            read(*given)
        self.assertEqual((caught.exception.number, caught.exception.line), (number, line))

    def unread(self, line, part, text):
        with self.assertRaises(Unread) as caught:
            Ramp.from_cpt(text)
        self.assertEqual(caught.exception.line, line)
        self.assertIn(part, str(caught.exception))

    def test_a_gimp_gradient(self):
        ramp = Ramp.from_ggr(GGR)
        self.assertEqual((ramp.kind, ramp.name, len(ramp), ramp.codes), (Kind.GIMP, 'Shelf', 2, bytes([0, 0, 2, 1])))
        self.assertEqual(ramp(0.5), Colour(1.0, 1.0, 1.0, 1.0))
        with tempfile.TemporaryDirectory() as folder:
            file = Path(folder) / 'shelf.ggr'
            file.write_bytes(GGR)
            self.assertEqual(Ramp.from_ggr(file), ramp)
            self.assertEqual(Ramp.from_ggr(str(file)), ramp)

    def test_colours_that_a_segment_names(self):
        text = b'GIMP Gradient\nName: Named\n1\n0 .5 1 0 0 0 1 0 0 0 1 0 0 1 3\n'
        ramp = Ramp.from_ggr(text, foreground='#f00', background='#00f')
        self.assertEqual((ramp(0.0), ramp(1.0)), (Colour(1.0, 0.0, 0.0, 1.0), Colour(0.0, 0.0, 1.0, 1.0)))
        self.refused(Reason.NOT_FINITE, 0, Ramp.from_ggr, text, (float('nan'), 0, 0))

    def test_a_refusal_of_a_gimp_gradient_has_its_line(self):
        self.refused(Reason.FEW_LINES, 3, Ramp.from_ggr, GGR[: GGR.index(b'.5 .7')])
        self.refused(Reason.BAD_HEADER, 1, Ramp.from_ggr, b'GIMP\n' + GGR)
        self.refused(Reason.BAD_SEGMENT, 4, Ramp.from_ggr, GGR.replace(b'0 .2', b'0 ,2'))
        with self.assertRaises(Refusal) as caught:
            Ramp.from_ggr(GGR.replace(b'.5 .7', b'.6 .7'))
        self.assertTrue(str(caught.exception).startswith('refused 18: the segments of the GIMP text'))

    def test_a_gimp_gradient_as_gimp_saves_it(self):
        name = '\u041c\u043e\u0440\u0435'
        text = f'GIMP Gradient\nName: {name}\n1\n0 5.0000000000000000e-01 1 0 0 0 1 1 1 1 1 1 0 0 0\n'.encode()
        ramp = Ramp.from_ggr(text)
        self.assertEqual((ramp.kind, ramp.name, ramp(0.5).r), (Kind.GIMP_SAVED, name, 0.5))
        with self.assertRaises(Refusal) as caught:
            Ramp.from_ggr(text, strict=True)
        self.assertEqual(caught.exception.number, Reason.NOT_A_TEXT)
        self.assertEqual(Ramp.from_ggr(GGR, strict=True), Ramp.from_ggr(GGR))

    def test_colour_tables(self):
        tables = [
            b'-6000 8 16 48 -200 74 144 192\n-200 74 144 192 0 216 240 248\n',
            b'\xef\xbb\xbf# COLOR_MODEL = RGB\r\n-6000 8/16/48 -200 74/144/192 L ; deep\r\n'
            b'-200 74/144/192 0 216/240/248\r\nB 0 0 0\r\n',
            b'# a comment\n\n-6000\t8\t16\t48\t-200\t74\t144\t192\tB\n-200 74 144 192 0 216.0 240 248.0\nF 255 255 255\nN 127',
        ]
        for table in tables:
            ramp = Ramp.from_cpt(table)
            self.assertEqual(ramp, Ramp.linear([-6000, -200, 0], ['#081030', '#4a90c0', '#d8f0f8']))

    def test_a_jump_is_two_stops(self):
        ramp = Ramp.from_cpt(b'0 0 0 0 1 0 0 0\n1 255 255 255 2 255 255 255\n')
        self.assertEqual(ramp.positions, (0.0, 1.0, 1.0, 2.0))
        self.assertEqual([ramp(1).r, ramp(1.0001).r], [0.0, 1.0])

    def test_names_of_colours(self):
        ramp = Ramp.from_cpt(b'0 black 1 gray50\n1 gray50 2 darkorange1\n2 darkorange1 3 white\n')
        self.assertEqual([colour.to_hex() for colour in ramp.colours], ['#000000', '#7f7f7f', '#ff7f00', '#ffffff'])

    def test_tables_that_are_not_read(self):
        self.unread(2, 'a slice from 1 on', b'0 0 0 0 1 9 9 9\n2 0 0 0 3 9 9 9\n')
        self.unread(1, 'model RGB', b'# COLOR_MODEL = HSV\n0 0 0 0 1 9 9 9\n')
        self.unread(1, 'a point, not a comma', b'0 0 0 0 1,5 9 9 9\n')
        self.unread(1, '0 to 255', b'0 0 0 0 1 9 9 256\n')
        self.unread(1, "found 'rosso'", b'0 rosso 1 blue\n')
        self.unread(1, "found 'gray101'", b'0 gray101 1 blue\n')
        self.unread(1, 'found 5 fields', b'0 0 0 0 1\n')
        self.unread(0, 'no slice', b'# nothing\n')
        self.refused(Reason.FALLING, 2, Ramp.from_cpt, b'0 0 0 0 1 9 9 9\n1 9 9 9 0.5 0 0 0\n')

    def test_the_text_of_the_tool(self):
        depths = Ramp.from_text(header.ROOT / 'examples' / 'depths.tsv')
        self.assertEqual((depths.kind, len(depths), depths.positions[-1]), (Kind.LINEAR, 12, 1.0))
        self.assertEqual(Ramp.from_text(header.ROOT / 'examples' / 'shelf.tsv').kind, Kind.SMOOTHSTEP)
        self.refused(Reason.FALLING, 4, Ramp.from_text, header.ROOT / 'examples' / 'refused.tsv')
        with self.assertRaises(Unread) as caught:
            Ramp.from_text(header.ROOT / 'examples' / 'unread.tsv')
        self.assertEqual(caught.exception.line, 3)
        with self.assertRaises(Unread):
            Ramp.from_text(b'kind\tround\n')


if __name__ == '__main__':
    unittest.main()
