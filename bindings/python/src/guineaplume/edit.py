"""Edits of a ramp of stops."""

from __future__ import annotations

from array import array
from enum import IntEnum
from operator import index
from typing import NamedTuple, Tuple

from .colour import Colour, ColourLike
from .ramp import Ramp

_NONE = Colour(0.0, 0.0, 0.0, 0.0)

# an index that no stop has
_NO_STOP = 2**64 - 1


class Sort(IntEnum):
    """What an edit does."""

    COLOUR = 0
    MOVE = 1
    ADD = 2
    REMOVE = 3


class Edit(NamedTuple):
    """One edit of a ramp's stops, which are counted from 0. A colour can be changed of linear, smoothstep, basis and
    Catmull-Rom ramps, of any stop. A stop is moved, added or removed of linear and smoothstep ramps; the first and the last
    stay. Anything else is refused with 6; then a stop beyond 2,048 with 1; then a position before the stop before or past the
    one after with 3."""

    sort: Sort
    stop: int
    position: float = 0.0
    colour: Colour = _NONE

    @classmethod
    def recolour(cls, stop: int, colour: ColourLike) -> 'Edit':
        """A stop gets another colour."""
        return cls(Sort.COLOUR, index(stop), colour=Colour.of(colour))

    @classmethod
    def move(cls, stop: int, position: float) -> 'Edit':
        """A stop moves between its neighbours, or onto one of them."""
        return cls(Sort.MOVE, index(stop), float(position))

    @classmethod
    def add(cls, stop: int, position: float, colour: ColourLike) -> 'Edit':
        """A stop more; stop is the index that it gets."""
        return cls(Sort.ADD, index(stop), float(position), Colour.of(colour))

    @classmethod
    def remove(cls, stop: int) -> 'Edit':
        """A stop less."""
        return cls(Sort.REMOVE, index(stop))

    @property
    def _plain(self) -> Tuple[float, ...]:
        stop = self.stop if 0 <= self.stop < _NO_STOP else _NO_STOP
        return (int(self.sort), stop, self.position, *self.colour)

    def made_in(self, ramp: Ramp) -> Ramp:
        """The ramp with the edit made, as a ramp of its own. What the library would refuse is not looked for here.

        >>> ramp = Ramp.linear([0, 1], ['#000', '#fff'])
        >>> Edit.add(1, 0.25, '#f00').made_in(ramp).positions
        (0.0, 0.25, 1.0)
        """
        _, positions, channels, _ = ramp._lent
        at = 4 * self.stop
        before, after = channels[:at], channels[at + (0 if self.sort == Sort.ADD else 4) :]
        if self.sort == Sort.MOVE:
            positions = positions[: self.stop] + array('f', [self.position]) + positions[self.stop + 1 :]
            return Ramp(ramp.kind, positions, channels, name=ramp.name)
        if self.sort == Sort.ADD:
            positions = positions[: self.stop] + array('f', [self.position]) + positions[self.stop :]
        if self.sort == Sort.REMOVE:
            positions = positions[: self.stop] + positions[self.stop + 1 :]
            return Ramp(ramp.kind, positions, before + after, name=ramp.name)
        return Ramp(ramp.kind, positions, before + array('f', self.colour) + after, name=ramp.name)

    def undone_in(self, ramp: Ramp) -> 'Edit':
        """The edit that undoes this one, once it has been made in the ramp.

        >>> ramp = Ramp.linear([0, 0.5, 1], ['#000', '#ccc', '#fff'])
        >>> edit = Edit.remove(1)
        >>> edit.undone_in(ramp).made_in(edit.made_in(ramp)) == ramp
        True
        """
        if self.sort == Sort.ADD:
            return Edit.remove(self.stop)
        position, colour = ramp.positions[self.stop], ramp.colours[self.stop]
        if self.sort == Sort.MOVE:
            return Edit.move(self.stop, position)
        return Edit.recolour(self.stop, colour) if self.sort == Sort.COLOUR else Edit.add(self.stop, position, colour)
