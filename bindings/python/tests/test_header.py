"""The calls, the numbers, the words and the version of this package are those of the headers."""

import unittest

import header
from guineaplume import HOLD, THRESHOLD, Fault, Judged, Kind, Reason, Sort, __version__, library_version
from guineaplume import formats, lists, reading, record
from guineaplume._exports import DECLARED, parted


class Headers(unittest.TestCase):
    def test_calls_are_declared_as_in_the_header(self):
        own = {name: parted(text) for name, text in DECLARED.items()}
        types = {name: ([kind for _, kind in parameters], answer) for name, (parameters, answer) in own.items()}
        self.assertEqual(types, header.declared())
        self.assertGreaterEqual(len(own), 28)

    def test_refusals_have_the_numbers_and_words_of_the_header(self):
        numbers, words = header.refusals()
        self.assertEqual(numbers.pop('FINE'), 0)
        self.assertEqual({reason.name: reason.value for reason in Reason}, numbers)
        for reason in Reason:
            self.assertEqual(reason.words, words[reason.name])

    def test_kinds_sorts_and_verdicts(self):
        self.assertEqual({kind.name: kind.value for kind in Kind}, header.enumerated('ColorgradKind'))
        sorts = {f'EDIT_{sort.name}': sort.value for sort in Sort}
        self.assertEqual(sorts, header.enumerated('ColorgradSort'))
        verdicts = {'NOT_JUDGED': 0, **{judged.name: judged.value for judged in Judged}}
        self.assertEqual(verdicts, header.enumerated('ColorgradVerdict'))

    def test_faults(self):
        for fault in Fault:
            if fault:
                self.assertIn(f'#define COLORGRAD_{fault.name} {fault.value}u ', header.HEADER)

    def test_limits(self):
        for name, own in {
            'MOST_SEGMENTS': reading.MOST_SEGMENTS,
            'CELLS': record.CELLS,
            'ROW': record.MOST_COUNT,
            'ROWS': record.ROWS,
            'MARKS': record.MARKS,
            'MOST_POINTS': lists.MOST_POINTS,
            'MOST_WRITTEN': formats.MOST_WRITTEN,
        }.items():
            self.assertIn(f'#define COLORGRAD_{name} {own}u ', header.HEADER)
        self.assertIn(f'#define COLORGRAD_THRESHOLD {THRESHOLD}f\n', header.HEADER)
        self.assertIn(f'#define COLORGRAD_HOLD {HOLD}f\n', header.HEADER)

    def test_one_version(self):
        self.assertEqual(library_version(), __version__)
        self.assertIn(f'#define COLORGRAD_VERSION_TEXT "{__version__}"\n', header.HEADER)


if __name__ == '__main__':
    unittest.main()
