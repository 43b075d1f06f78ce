"""Sample records."""

from __future__ import annotations

from array import array
from typing import Any, Tuple

from ._library import zeros
from .refusal import Reason, Refusal

CELLS = 36
ROWS = 4608
MARKS = 3
MOST_COUNT = 128


class Record:
    """How finely each of 36 cells of a ramp's domain has to be cut, at one threshold. `Gradient.sample` makes one,
    `Ramp.refresh` keeps it true after an edit, `Gradient.thin` makes a list of it. It remembers the threshold that it was
    sampled with and the ends of its ramp; nothing else ties it to that ramp. Two threads must not use one at once.

    >>> from guineaplume import Ramp
    >>> record = Ramp.linear([0, 1], ['#000', '#fff']).sample(0.01)
    >>> round(record.threshold, 6), record.evaluations, set(record.counts)
    (0.01, 108, {1})
    """

    __slots__ = ('_rows', '_counts', '_marks', 'evaluations')

    def __init__(self) -> None:
        self._rows = zeros('f', ROWS)
        self._counts = array('B', bytes([1]) * CELLS)
        self._marks = zeros('I', MARKS)
        self.evaluations = 0

    @classmethod
    def from_parts(cls, rows: Any, counts: Any, marks: Any) -> 'Record':
        """A record that was kept elsewhere. Refused with 5 where it is not 4,608 numbers, 36 counts of 1 to 128 and 3 words."""
        made = cls()
        made._rows, made._counts, made._marks = array('f', rows), array('B', counts), array('I', marks)
        is_shaped = (len(made._rows), len(made._counts), len(made._marks)) == (ROWS, CELLS, MARKS)
        if not is_shaped or not all(1 <= count <= MOST_COUNT for count in made._counts):
            raise Refusal(Reason.BAD_RECORD)
        return made

    @property
    def _lent(self) -> Tuple[array[float], array[int], array[int]]:
        return self._rows, self._counts, self._marks

    @property
    def rows(self) -> Tuple[float, ...]:
        """128 numbers for each cell, of which its count says how many are used."""
        return tuple(self._rows)

    @property
    def counts(self) -> Tuple[int, ...]:
        """One for each cell, 1 to 128."""
        return tuple(self._counts)

    @property
    def marks(self) -> Tuple[int, ...]:
        """The bits of the threshold in force, of min and of max that it was sampled with."""
        return tuple(self._marks)

    @property
    def threshold(self) -> float:
        """The threshold in force when it was sampled."""
        return array('f', self._marks[:1].tobytes())[0]

    def copy(self) -> 'Record':
        """A record of its own with the same contents."""
        made = Record.from_parts(*self._lent)
        made.evaluations = self.evaluations
        return made

    def __eq__(self, other: object) -> bool:
        """Where rows, counts and words are the same, however they came about."""
        return isinstance(other, Record) and self._bytes() == other._bytes()

    def _bytes(self) -> Tuple[bytes, ...]:
        # not-a-number equals itself here
        return self._rows.tobytes(), self._counts.tobytes(), self._marks.tobytes()

    __hash__ = None  # type: ignore[assignment]
