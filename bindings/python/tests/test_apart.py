"""Depths that became one."""

import unittest

from guineaplume import Fault, Kind, List, Ramp, Reason, Refusal
from test_lists import BAND


class Depths(unittest.TestCase):
    def test_the_lost_band(self):
        lost = BAND.flatten()
        told = BAND.apart(lost)
        self.assertTrue(BAND.judge(lost))
        self.assertEqual((told.moved, told.merged, told.first_merged), (2, 2, 2))
        self.assertEqual(told.faults[2], Fault.MOVED | Fault.MERGED)
        words = [
            '6 depths: 2 moved, 2 merged with the one before',
            '0: as in the ramp',
            '0.389: as in the ramp',
            '0.3891: moved; merged with 0.389',
            '0.4026: moved; the ramp itself does not tell it from 0.3891',
            '0.4027: merged with 0.4026',
            '1: as in the ramp',
        ]
        self.assertEqual(str(told).split('\n'), words)

    def test_a_list_that_keeps_its_word(self):
        told = BAND.apart(BAND.within(), threshold=0.001)
        self.assertEqual((told.is_kept, told.first_merged), (True, None))

    def test_what_is_refused(self):
        whole = BAND.within()
        for number, given in [
            (Reason.BAD_LIST, (List([0, 2], ['#000', '#fff']),)),
            (Reason.BAD_DEPTHS, (whole, [])),
            (Reason.BAD_DEPTHS, (whole, [0.5, 0.25])),
            (Reason.BAD_DEPTHS, (whole, [2])),
            (Reason.BAD_STEP, (whole, [0.5], -1)),
        ]:
            with self.assertRaises(Refusal) as caught:
                BAND.apart(*given)
            self.assertEqual(caught.exception.number, number)

    def test_depths_of_segments(self):
        text = b'GIMP Gradient\nName: Two\n2\n0 .2 .5 0 0 0 1 1 1 1 1 0 0\n.5 .7 1 1 1 1 1 0 0 0 1 0 0\n'
        ramp = Ramp.from_ggr(text)
        self.assertEqual((ramp.kind, ramp.apart(ramp.within()).depths), (Kind.GIMP, (0.0, 0.5, 1.0)))


if __name__ == '__main__':
    unittest.main()
