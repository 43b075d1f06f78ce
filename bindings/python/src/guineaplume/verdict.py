"""What is said of a list that was made elsewhere."""

from __future__ import annotations

from dataclasses import dataclass
from enum import IntEnum
from typing import TYPE_CHECKING, Any, Tuple

from ._library import text_of, zeros
from .numerals import short
from .record import CELLS
from .refusal import fine

if TYPE_CHECKING:
    from .lists import List


class Judged(IntEnum):
    """The numbers of verdicts, the same in every face of the library."""

    YES = 1
    WRONG_LENGTH = 2
    BAD_STOP = 3
    WRONG_FIRST = 4
    WRONG_LAST = 5
    TOO_FAR = 6


@dataclass(frozen=True)
class Verdict:
    """Yes, or no with the first thing that is wrong: a stop, or the point of a fresh sampling (row 36 is the ramp's end). It is
    true where it is yes; as a text it is the library's words."""

    number: Judged
    stop: int
    row: int
    index: int
    t: float

    def __bool__(self) -> bool:
        return self.number == Judged.YES

    @property
    def words(self) -> str:
        """The library's words for it, without the stop or the point."""
        return text_of('verdict_message_told', int(self.number))

    def __str__(self) -> str:
        if self.number == Judged.BAD_STOP:
            return self.words.replace('a stop', f'stop {self.stop}', 1)
        if self.number != Judged.TOO_FAR:
            return self.words
        point = 'the end of the ramp' if self.row == CELLS else f'point {self.index} of row {self.row}'
        return f'{self.words} at {short(self.t)} ({point})'


def verdict_of(ramp: Tuple[Any, ...], threshold: float, offered: 'List') -> Verdict:
    told, t = zeros('Q', 4), zeros('f', 1)
    _, places, colours, _ = offered._lent
    fine('judge_told', *ramp, threshold, places, colours, told, t)
    number, stop, row, index = told
    return Verdict(Judged(number), stop, row, index, t[0])
