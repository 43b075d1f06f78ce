"""Records, lists, verdicts and edits."""

import random
import unittest

from guineaplume import Colour, Edit, Judged, List, Ramp, Reason, Record, Refusal, Sheet
from guineaplume.record import ROWS

RED = (1, 0, 0)

# a thin red band, which the published list passes over
BAND = Ramp.linear([0, 0.389, 0.3891, 0.4026, 0.4027, 1], [[0] * 3, [0.389] * 3, RED, RED, [0.4027] * 3, [1] * 3])


def some_ramp(make, seed, stops=8):
    chance = random.Random(seed)
    return make([i / (stops - 1) for i in range(stops)], [[chance.random() for _ in range(4)] for _ in range(stops)])


class Lists(unittest.TestCase):
    def refused(self, number, make, *given):
        with self.assertRaises(Refusal) as caught:
            make(*given)
        self.assertEqual(caught.exception.number, number)

    def test_flattening_is_sampling_and_thinning(self):
        for make in (Ramp.linear, Ramp.smoothstep, Ramp.sharp, Ramp.basis, Ramp.catmull_rom):
            ramp = some_ramp(make, 1)
            record = ramp.sample(0.01)
            whole = ramp.flatten(0.01)
            self.assertEqual(whole.record, record)
            self.assertEqual(ramp.thin(record), whole)
            self.assertEqual(list(ramp.stops_of(record)), list(whole))
            self.assertEqual(ramp.thin_within(record), ramp.within(threshold=0.01))
            self.assertEqual(whole.evaluations, record.evaluations + ramp.thin(record).evaluations)

    def test_lists_within_keep_their_word(self):
        self.assertEqual(len(BAND.flatten()), 2)
        self.assertEqual(list(BAND.within()), list(zip(BAND.positions, BAND.colours)))
        for make in (Ramp.linear, Ramp.smoothstep, Ramp.basis, Ramp.catmull_rom):
            ramp = some_ramp(make, 2)
            self.assertTrue(ramp.judge(ramp.within()))

    def test_a_list_is_a_ramp(self):
        listed = BAND.within()
        self.assertEqual(listed(0.39), BAND(0.39))
        self.assertEqual(listed.to_ramp().domain, listed.domain)
        self.assertEqual(listed.within(), listed)

    def test_verdicts(self):
        black, white = Colour.of('#000'), Colour.of('#fff')
        for verdict, positions in {
            Judged.WRONG_LENGTH: [0],
            Judged.BAD_STOP: [0, float('nan')],
            Judged.WRONG_FIRST: [-1, 1],
            Judged.WRONG_LAST: [0, 2],
        }.items():
            said = BAND.judge(List(positions, [black, white][: len(positions)]))
            self.assertEqual((said.number, bool(said)), (verdict, False))
        self.assertEqual(BAND.judge(List([0, float('nan')], [black, white])).stop, 1)
        self.assertEqual(BAND.judge(List([0, 1], [black, white])).number, Judged.YES)
        far = BAND.judge(List([0, 1], [black, black]))
        self.assertEqual((far.number, far.row, far.index), (Judged.TOO_FAR, 1, 0))
        self.assertTrue(str(far).endswith('(point 0 of row 1)'))

    def test_records_from_elsewhere(self):
        record = BAND.sample()
        self.assertEqual(Record.from_parts(record.rows, record.counts, record.marks), record)
        self.refused(Reason.BAD_RECORD, Record.from_parts, [0.0] * (ROWS - 1), record.counts, record.marks)
        self.refused(Reason.BAD_RECORD, Record.from_parts, record.rows, [0] * 36, record.marks)
        deeper = Ramp.linear([0, 2], ['#000', '#fff'])
        self.refused(Reason.OTHER_THRESHOLD, deeper.thin, record)
        self.refused(Reason.OTHER_THRESHOLD, lambda: list(deeper.stops_of(record)))

    def test_a_domain_that_is_too_far(self):
        far = Ramp.linear([0, 2e38], ['#000', '#fff'])
        for call in (far.sample, far.flatten, far.within, lambda: far.judge(BAND.within())):
            self.refused(Reason.FAR_DOMAIN, call)


class Edits(unittest.TestCase):
    edits = [
        Edit.recolour(2, '#f80'),
        Edit.move(3, 0.5),
        Edit.add(1, 0.001, '#08f'),
        Edit.remove(4),
        Edit.recolour(0, '#123'),
    ]

    def test_a_refreshed_record_is_a_fresh_one(self):
        for make in (Ramp.linear, Ramp.smoothstep):
            ramp = some_ramp(make, 3)
            record = ramp.sample()
            for edit in self.edits:
                before, kept = ramp, record.copy()
                ramp, listed = ramp.refresh_list(record, edit)
                self.assertEqual(record, ramp.sample())
                self.assertEqual(listed, ramp.flatten())
                self.assertEqual(before.refresh(kept, edit), ramp)
                self.assertEqual(kept, record)
                self.assertEqual(edit.undone_in(before).made_in(ramp), before)

    def test_a_refused_edit_changes_nothing(self):
        ramp = some_ramp(Ramp.linear, 4)
        record = ramp.sample()
        kept = record.copy()
        for number, edit in [
            (Reason.BAD_EDIT, Edit.move(0, 0.5)),
            (Reason.BAD_EDIT, Edit.recolour(8, '#000')),
            (Reason.BAD_EDIT, Edit.recolour(-1, '#000')),
            (Reason.BAD_EDIT, Edit.recolour(2**64, '#000')),
            (Reason.BAD_EDIT, Edit.move(2, float('nan'))),
            (Reason.FALLING, Edit.move(2, 0.999999)),
        ]:
            with self.assertRaises(Refusal) as caught:
                ramp.refresh(record, edit)
            self.assertEqual(caught.exception.number, number)
            self.assertEqual(record, kept)


class Sheets(unittest.TestCase):
    def any_edits(self, seed, count=120):
        chance = random.Random(seed)
        for _ in range(count):
            stop, colour = chance.randrange(9), [chance.random() for _ in range(4)]
            make = chance.choice(
                [
                    lambda: Edit.recolour(stop, colour),
                    lambda: Edit.move(stop, chance.random()),
                    lambda: Edit.add(stop, chance.random(), colour),
                    lambda: Edit.remove(stop),
                ]
            )
            yield make()

    def test_after_any_edits_all_is_fresh(self):
        for make in (Ramp.linear, Ramp.smoothstep, Ramp.basis, Ramp.catmull_rom):
            for hold in (None, 0.001):
                sheet = Sheet(some_ramp(make, 5), hold, 0.01)
                back, refused = [], 0
                for edit in self.any_edits(6):
                    before, record, listed = sheet.ramp, sheet.record, sheet.list
                    try:
                        back.append(sheet.edit(edit))
                    except Refusal:
                        refused += 1
                        self.assertEqual((sheet.ramp, sheet.record, sheet.list), (before, record, listed))
                        continue
                    self.assertEqual(sheet.ramp, edit.made_in(before))
                    whole = sheet.ramp.flatten(0.01) if hold is None else sheet.ramp.within(hold, 0.01)
                    self.assertEqual((sheet.record, sheet.list), (whole.record, whole))
                self.assertTrue(len(back) > 20 and refused > 10)
                for edit in reversed(back):
                    sheet.edit(edit)
                self.assertEqual(sheet.ramp, some_ramp(make, 5))

    def test_a_list_that_is_refused_is_mended(self):
        sheet = Sheet(Ramp.linear([0, 0.5, 1], [[0] * 3, [0.5] * 3, [1] * 3]), hold=None)
        sheet.edit(Edit.recolour(0, (-3.4e38, 0, 0)))
        back = sheet.edit(Edit.recolour(1, (3.4e38, 0, 0)))
        with self.assertRaises(Refusal) as caught:
            sheet.judge()
        self.assertEqual(caught.exception.number, Reason.LIST_NOT_FINITE)
        sheet.edit(back)
        self.assertEqual(sheet.list, sheet.ramp.flatten())

    def test_what_has_no_edits(self):
        text = b'GIMP Gradient\nName: x\n1\n0 0.5 1 0 0 0 1 1 1 1 1 0 0\n'
        for ramp in (Ramp.from_ggr(text), Ramp.bands(['#000', '#fff'])):
            sheet = Sheet(ramp)
            self.assertEqual(sheet.list, ramp.within())
            with self.assertRaises(Refusal) as caught:
                sheet.edit(Edit.recolour(0, '#fff'))
            self.assertEqual(caught.exception.number, Reason.BAD_EDIT)
            self.assertEqual(sheet.ramp, ramp)

    def test_a_stop_too_many(self):
        sheet = Sheet(Ramp.linear(range(2048), [[0.5] * 3] * 2048), hold=None)
        with self.assertRaises(Refusal) as caught:
            sheet.edit(Edit.add(1, 0.5, '#000'))
        self.assertEqual(caught.exception.number, Reason.MISSHAPEN)
        sheet.edit(Edit.remove(1))
        sheet.edit(Edit.add(1, 0.5, '#000'))
        self.assertEqual(len(sheet.ramp), 2048)


if __name__ == '__main__':
    unittest.main()
