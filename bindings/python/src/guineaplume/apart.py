"""Which depths became one in a list."""

from __future__ import annotations

from array import array
from enum import IntFlag
from typing import TYPE_CHECKING, Any, NamedTuple, Optional, Tuple

from ._library import zeros
from .numerals import short
from .refusal import fine

if TYPE_CHECKING:
    from .lists import List


class Fault(IntFlag):
    """What is wrong at a depth. CLOSE is news of the ramp, and no fault of the list."""

    NONE = 0
    MOVED = 1
    CLOSE = 2
    MERGED = 4


class Apart(NamedTuple):
    """What was found at each depth, and how many of each. `first_merged` is the index of the first depth that the list does not
    tell from the one before, where the ramp does; None where there is none. As a text it has a line for all and one for each.
    """

    depths: Tuple[float, ...]
    faults: Tuple[Fault, ...]
    moved: int
    close: int
    merged: int
    first_merged: Optional[int]

    @property
    def is_kept(self) -> bool:
        """Whether no depth moved, and none is merged."""
        return not self.moved and not self.merged

    def __str__(self) -> str:
        lines = [f'{len(self.depths)} depths: {self.moved} moved, {self.merged} merged with the one before']
        before = ''
        for depth, fault in zip(map(short, self.depths), self.faults):
            lines.append(f'{depth}: {_words(fault, before)}')
            before = depth
        return '\n'.join(lines)


def _words(fault: Fault, before: str) -> str:
    said = ['moved'] if fault & Fault.MOVED else []
    if fault & Fault.CLOSE:
        said.append(f'the ramp itself does not tell it from {before}')
    if fault & Fault.MERGED:
        said.append(f'merged with {before}')
    return '; '.join(said) or 'as in the ramp'


def apart_of(ramp: Tuple[Any, ...], threshold: float, step: float, depths: array[float], offered: 'List') -> Apart:
    faults, told = zeros('B', len(depths)), zeros('Q', 4)
    _, places, colours, _ = offered._lent
    fine('apart_told', *ramp, threshold, step, depths, places, colours, faults, told)
    moved, close, merged, first = told
    return Apart(tuple(depths), tuple(map(Fault, faults)), moved, close, merged, first if merged else None)
