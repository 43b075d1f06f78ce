"""Ramps of every kind: what is made, what is refused, and their colours."""

import math
import pickle
import threading
import unittest
import warnings
from array import array
from pathlib import Path

from guineaplume import Colour, Edit, Kind, Ramp, Reason, Refusal

try:
    import numpy as np
except ImportError:
    np = None

GREYS = ['#000', '#404040', '#c0c0c0', '#fff']
PLACES = [0, 0.25, 0.5, 1]
KINDS = [Ramp.linear, Ramp.smoothstep, Ramp.sharp, Ramp.basis, Ramp.catmull_rom]


class Making(unittest.TestCase):
    def refused(self, number, make, *given):
        with self.assertRaises(Refusal) as caught:
            make(*given)
        self.assertEqual(caught.exception.number, number)
        return caught.exception

    def test_every_kind(self):
        for kind, make in zip(Kind, KINDS):
            ramp = make(PLACES, GREYS)
            self.assertEqual((ramp.kind, len(ramp), ramp.domain), (kind, 4, (0.0, 1.0)))
            self.assertEqual(ramp(0.0), Colour(0.0, 0.0, 0.0, 1.0))
            self.assertEqual(ramp(1.0), Colour(1.0, 1.0, 1.0, 1.0))

    def test_segments_that_are_curved(self):
        positions, channels, codes = [0, 0.25, 1], [0, 0, 0, 1, 1, 1, 1, 1], bytes([1, 0])
        ramp = Ramp(Kind.GIMP_SAVED, positions, channels, codes)
        self.assertEqual((len(ramp), ramp(0.25)), (1, Colour(0.5, 0.5, 0.5, 1.0)))
        self.assertEqual(repr(ramp), '<gimp_saved ramp of 1 segments from 0 to 1>')
        self.assertEqual(ramp.apart(ramp.within()).depths, (0.0, 1.0))
        self.refused(Reason.BAD_EDIT, ramp.refresh, ramp.sample(), Edit.move(0, 0.5))
        self.refused(Reason.MISSHAPEN, Ramp, Kind.GIMP, positions, channels, codes)
        self.refused(Reason.MISSHAPEN, Ramp, Kind.GIMP_SAVED, [0.25, 0, 1], channels, codes)

    def test_what_is_refused(self):
        for make in KINDS:
            self.refused(Reason.MISSHAPEN, make, [0], ['#000'])
            self.refused(Reason.MISSHAPEN, make, [0, 1], ['#000'])
            self.refused(Reason.NOT_FINITE, make, [0, math.nan, 1, 2], GREYS)
            self.refused(Reason.NOT_FINITE, make, [0, 1, 2, 1e39], GREYS)
            self.refused(Reason.FALLING, make, [0, 1, 0.5, 2], GREYS)
        self.refused(Reason.MISSHAPEN, Ramp.sharp, [0, 0.5, 1], GREYS[:3])
        self.refused(Reason.NOT_BUILT, Ramp.bands, [])
        self.refused(Reason.NOT_BUILT, Ramp.bands, GREYS, (1, 0))

    def test_a_refusal_has_number_words_and_line(self):
        refusal = self.refused(Reason.FALLING, Ramp.linear, [1, 0], GREYS[:2])
        self.assertEqual((refusal.number, refusal.line), (3, 0))
        self.assertEqual(str(refusal), "refused 3: a stop's position is below that of the stop before it")
        self.assertIsInstance(refusal, ValueError)
        again = pickle.loads(pickle.dumps(refusal))
        self.assertEqual((again.number, str(again)), (refusal.number, str(refusal)))

    def test_colours_are_taken_in_every_form(self):
        forms = ['#ff0000', '#f00', '#ff0000ff', (1, 0, 0), [1.0, 0.0, 0.0, 1.0], Colour(1, 0, 0)]
        for form in forms:
            self.assertEqual(Colour.of(form), (1.0, 0.0, 0.0, 1.0))
        self.assertEqual(Colour.of('#00000080').to_hex(), '#00000080')
        for form in ['red', '#ff', '#gggggg', (1, 0), (1, 0, 0, 1, 0)]:
            with self.assertRaises(ValueError):
                Colour.of(form)

    def test_bytes_that_are_taken_for_channels(self):
        with self.assertWarnsRegex(UserWarning, 'a channel is 240, and counts as 1') as caught:
            Ramp.linear([0, 1], [(8, 16, 48), (216, 240, 224)])
        self.assertEqual(Path(caught.filename).name, 'test_ramps.py')
        with warnings.catch_warnings():
            warnings.simplefilter('error')
            self.assertEqual(Ramp.linear([0, 1], [Colour.of_bytes(8, 16, 48), '#fff'])(0).to_hex(), '#081030')
            Ramp.basis([0, 1], [(1.0000001, 0, 0), '#fff'])

    def test_every_byte_comes_back(self):
        for byte in range(256):
            self.assertEqual(Colour.of(f'#{byte:02x}0000').to_bytes()[0], byte)
        self.assertEqual(Colour(math.nan, math.inf, -1, 0.1).to_bytes(), (0, 255, 0, 26))

    def test_a_ramp_stays_as_it_was(self):
        places, colours = array('f', PLACES), [list(Colour.of(grey)) for grey in GREYS]
        ramp = Ramp.linear(places, colours)
        places[1], colours[1][0] = 0.3, 0.9
        self.assertEqual(ramp, Ramp.linear(PLACES, GREYS))
        self.assertEqual(pickle.loads(pickle.dumps(ramp)), ramp)
        self.assertEqual(repr(ramp), '<linear ramp of 4 stops from 0 to 1>')


class Painting(unittest.TestCase):
    ramp = Ramp.smoothstep(PLACES, GREYS)
    points = [-1.0, 0.0, 0.1, 0.25, 0.7, 1.0, 2.0, math.nan]

    def test_numbers_sequences_and_arrays_agree(self):
        each = [self.ramp(t) for t in self.points]
        self.assertEqual(self.ramp(self.points), each)
        self.assertEqual(self.ramp(iter(self.points)), each)
        flat = array('f', [channel for colour in each for channel in colour])
        self.assertEqual(self.ramp.paint(self.points), flat)
        self.assertEqual(self.ramp(array('f', self.points)), flat)
        out = array('f', bytes(len(flat) * 4))
        self.assertIs(self.ramp.paint(array('f', self.points), out), out)
        self.assertEqual(out, flat)

    def test_room_that_does_not_fit(self):
        with self.assertRaises(Refusal) as caught:
            self.ramp.paint([0.5], array('f', [1.0] * 3))
        self.assertEqual(caught.exception.number, Reason.NO_ROOM)
        with self.assertRaises(TypeError):
            self.ramp.paint([0.5], array('d', [0.0] * 4))
        points = array('f', [0.5] * 4)
        with self.assertRaises(ValueError):
            self.ramp.paint(points, points)

    def test_threads_paint_at_once(self):
        points, seen = array('f', [i / 20000 for i in range(20000)]), []
        threads = [threading.Thread(target=lambda: seen.append(self.ramp.paint(points))) for _ in range(4)]
        for thread in threads:
            thread.start()
        for thread in threads:
            thread.join()
        self.assertEqual(seen, [self.ramp.paint(points)] * 4)


@unittest.skipIf(np is None, 'numpy is not at hand')
class Arrays(unittest.TestCase):
    ramp = Ramp.catmull_rom(PLACES, GREYS)

    def test_shapes(self):
        grid = np.linspace(-0.5, 1.5, 60).reshape(3, 4, 5)
        painted = self.ramp(grid)
        self.assertEqual((painted.shape, painted.dtype), ((3, 4, 5, 4), np.float32))
        flat = [tuple(row) for row in painted.reshape(-1, 4).tolist()]
        self.assertEqual(flat, self.ramp(grid.ravel().tolist()))
        self.assertEqual(self.ramp(np.zeros(0)).shape, (0, 4))

    def test_numbers_of_numpy(self):
        for number in (np.float32(0.5), np.float64(0.5), np.array(0.5), np.int64(0)):
            self.assertIsInstance(self.ramp(number), Colour)

    def test_arrays_that_are_not_in_order(self):
        grid = np.arange(24, dtype=np.float32).reshape(4, 6) / 24
        for view in (grid.T, grid[:, ::2], grid[::-1], grid.astype('>f4'), grid.astype(np.float64)):
            np.testing.assert_array_equal(self.ramp(view), self.ramp(np.ascontiguousarray(view, dtype=np.float32)))

    def test_room_of_the_callers(self):
        points = np.linspace(0, 1, 5, dtype=np.float32)
        out = np.empty((5, 4), dtype=np.float32)
        self.assertIs(self.ramp.paint(points, out), out)
        np.testing.assert_array_equal(out, self.ramp(points))
        wrong = [np.empty((5, 4)), np.empty((4, 5), np.float32), np.empty((5, 8), np.float32)[:, ::2], out.tolist()]
        for room in wrong:
            with self.assertRaises(ValueError):
                self.ramp.paint(points, room)
        with self.assertRaises(ValueError):
            self.ramp.paint(out.ravel()[:5], out)

    def test_ramps_of_arrays(self):
        colours = np.array([Colour.of(grey) for grey in GREYS])
        self.assertEqual(Ramp.linear(np.array(PLACES), colours), Ramp.linear(PLACES, GREYS))
        self.assertEqual(Ramp.linear(np.array(PLACES), colours[:, :3]), Ramp.linear(PLACES, GREYS))
        with self.assertRaises(ValueError):
            Ramp.linear(PLACES, colours.ravel())


if __name__ == '__main__':
    unittest.main()
