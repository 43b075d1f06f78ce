"""Every call of the header is reached from the public names of the package."""

import unittest

import guineaplume
import header
from guineaplume import Edit, List, Ramp, Reason, Sheet, _library

RAMP = Ramp.linear([0, 0.5, 1], ['#000', '#c00', '#fff'])
RECORD = RAMP.sample()
LIST = RAMP.within()
GGR = b'GIMP Gradient\nName: Shelf\n1\n0 0.5 1 0 0 0 1 1 1 1 1 0 0\n'

REACHED_BY = {
    'colorgrad_check': lambda: Ramp.basis([0, 1], ['#000', '#fff']),
    'colorgrad_domain_told': lambda: RAMP.domain,
    'colorgrad_at_told': lambda: RAMP(0.5),
    'colorgrad_paint': lambda: RAMP([0.25, 0.75]),
    'colorgrad_sharp_told': lambda: Ramp.bands(['#000', '#fff']),
    'colorgrad_read_told': lambda: Ramp.from_ggr(GGR, strict=True),
    'colorgrad_read_saved_told': lambda: Ramp.from_ggr(GGR),
    'colorgrad_name': lambda: Ramp.from_ggr(GGR, strict=True).name,
    'colorgrad_name_saved': lambda: Ramp.from_ggr(GGR).name,
    'colorgrad_write_ggr_told': lambda: LIST.to_ggr(),
    'colorgrad_numeral': lambda: guineaplume.numeral(0.5),
    'colorgrad_sample_told': lambda: RAMP.sample(),
    'colorgrad_thin_told': lambda: RAMP.thin(RECORD),
    'colorgrad_flatten_told': lambda: RAMP.flatten(),
    'colorgrad_thin_within_told': lambda: RAMP.thin_within(RECORD),
    'colorgrad_flatten_within_told': lambda: RAMP.within(),
    'colorgrad_next_stop_told': lambda: list(RAMP.stops_of(RECORD)),
    'colorgrad_judge_told': lambda: RAMP.judge(LIST),
    'colorgrad_apart_told': lambda: RAMP.apart(LIST),
    'colorgrad_edit_told': lambda: RAMP.refresh(RECORD.copy(), Edit.move(1, 0.25)),
    'colorgrad_edit_list_told': lambda: RAMP.refresh_list(RECORD.copy(), Edit.remove(1)),
    'colorgrad_sheet_open_told': lambda: Sheet(RAMP),
    'colorgrad_sheet_edit_told': lambda: Sheet(RAMP).edit(Edit.remove(1)),
    'colorgrad_desk': lambda: guineaplume.desk(b'kind\tlinear\n'),
    'colorgrad_threshold': lambda: guineaplume.threshold(0.01),
    'colorgrad_hold': lambda: guineaplume.hold(0.002, 0.007),
    'colorgrad_root': lambda: guineaplume.root(2),
    'colorgrad_cutoff': lambda: guineaplume.cutoff(0.007),
    'colorgrad_token_told': lambda: guineaplume.token('0.5'),
    'colorgrad_long_token_told': lambda: guineaplume.long_token('5e-1'),
    'colorgrad_message_told': lambda: Reason.FALLING.words,
    'colorgrad_verdict_message_told': lambda: str(RAMP.judge(List([0], ['#000']))),
    'colorgrad_version': lambda: guineaplume.library_version(),
}


class Reached(unittest.TestCase):
    def test_every_call_of_the_header_is_listed(self):
        self.assertEqual(sorted(REACHED_BY), sorted(header.declared()))

    def test_each_is_reached(self):
        for name, by in REACHED_BY.items():
            with self.subTest(name):
                # a call is bound when it is first made
                _library._CALLS.clear()
                by()
                self.assertIn(name, ['colorgrad_' + call for call in _library._CALLS])


if __name__ == '__main__':
    unittest.main()
