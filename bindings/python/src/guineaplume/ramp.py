"""Ramps."""

from __future__ import annotations

from array import array
from enum import IntEnum
from typing import TYPE_CHECKING, Any, Iterable, Tuple

from ._library import zeros
from .colour import Colour, ColourLike, channels_of, colours_of, floats, warn_of_bytes
from .gradient import Gradient
from .refusal import fine

if TYPE_CHECKING:
    from .edit import Edit
    from .lists import List
    from .reading import Source
    from .record import Record

BLACK, WHITE = Colour(0.0, 0.0, 0.0), Colour(1.0, 1.0, 1.0)


class Kind(IntEnum):
    """How a ramp mixes between its stops."""

    LINEAR = 0
    SMOOTHSTEP = 1
    SHARP = 2
    BASIS = 3
    CATMULL_ROM = 4
    GIMP = 5
    GIMP_SAVED = 6

    @property
    def is_gimp(self) -> bool:
        """Segments, not stops; of GIMP_SAVED they may be curved."""
        return self in (Kind.GIMP, Kind.GIMP_SAVED)


class Ramp(Gradient):
    """A run of colours along a line of numbers. It passed the library's check when it was made, and it never changes.

    >>> sea = Ramp.linear([-6000, -200, 0], ['#081030', '#4a90c0', '#d8f0f8'])
    >>> sea.domain
    (-6000.0, 0.0)
    >>> sea(-200).to_hex()
    '#4a90c0'
    >>> [colour.to_hex() for colour in sea([-9000, -100, 0])]
    ['#081030', '#91c0dc', '#d8f0f8']

    An array of numpy gives an array: of n points (n, 4), of a grid (rows, columns, 4).
    """

    __slots__ = ('kind', 'name', '_positions', '_channels', '_codes')

    kind: Kind
    name: str
    _positions: array[float]
    _channels: array[float]
    _codes: array[int]

    def __init__(self, kind: int, positions: Any, channels: Any, codes: Any = b'', name: str = '') -> None:
        """Of flat numbers, as the library has them: for a stop one position and four channels; for a GIMP segment three
        positions (left, middle, right), eight channels and two codes. Refused with 1, 2, 3."""
        self.kind = Kind(kind)
        self.name = name
        self._positions, self._channels, self._codes = floats(positions), floats(channels), array('B', codes)
        fine('check', *self._lent)

    @property
    def _lent(self) -> Tuple[int, array[float], array[float], array[int]]:
        return int(self.kind), self._positions, self._channels, self._codes

    @property
    def _depths(self) -> array[float]:
        """Its own positions; of GIMP segments their ends."""
        return self._positions[:1] + self._positions[2::3] if self.kind.is_gimp else self._positions

    # ---- making one

    @classmethod
    def _of_stops(cls, kind: Kind, positions: Iterable[float], colours: Iterable[ColourLike]) -> 'Ramp':
        made = cls(kind, positions, channels_of(colours))
        warn_of_bytes(made._channels, 3)
        return made

    @classmethod
    def linear(cls, positions: Iterable[float], colours: Iterable[ColourLike]) -> 'Ramp':
        """Colours mixed linearly between stops. Refused with 1 where there are not as many positions as colours, or not 2 to
        2,048; with 2 where a number is not finite; with 3 where a position is below the one before. So are the others. A
        channel above 1 is warned of.

        >>> Ramp.linear([0, 1], ['#000000', '#ffffff'])(0.25)
        Colour(r=0.25, g=0.25, b=0.25, a=1.0)
        """
        return cls._of_stops(Kind.LINEAR, positions, colours)

    @classmethod
    def smoothstep(cls, positions: Iterable[float], colours: Iterable[ColourLike]) -> 'Ramp':
        """Colours mixed by a smooth step between stops."""
        return cls._of_stops(Kind.SMOOTHSTEP, positions, colours)

    @classmethod
    def sharp(cls, positions: Iterable[float], colours: Iterable[ColourLike]) -> 'Ramp':
        """Flat bands with soft edges: an even number of stops, of which each pair is one band. `bands` makes them."""
        return cls._of_stops(Kind.SHARP, positions, colours)

    @classmethod
    def basis(cls, positions: Iterable[float], colours: Iterable[ColourLike]) -> 'Ramp':
        """A basis spline: it starts and ends at the outer colours, and is drawn towards the others."""
        return cls._of_stops(Kind.BASIS, positions, colours)

    @classmethod
    def catmull_rom(cls, positions: Iterable[float], colours: Iterable[ColourLike]) -> 'Ramp':
        """A Catmull-Rom spline through the colours."""
        return cls._of_stops(Kind.CATMULL_ROM, positions, colours)

    @classmethod
    def bands(
        cls, colours: Iterable[ColourLike], domain: Tuple[float, float] = (0.0, 1.0), softness: float = 0.1
    ) -> 'Ramp':
        """A sharp ramp of bands of equal width. Softness 0 is hard edges, and it is taken into 0..1. Refused with 17 where
        there is no colour, there are more than 256, or the domain cannot be parted so; with 2 where a colour is not finite.

        >>> Ramp.bands(['#000', '#fff'], softness=0.5).positions
        (0.0, 0.4375, 0.5625, 1.0)
        """
        given = channels_of(colours)
        positions, channels, told = zeros('f', len(given) // 2), zeros('f', 2 * len(given)), zeros('Q', 1)
        fine('sharp_told', given, *domain, softness, positions, channels, told)
        warn_of_bytes(channels, 2)
        return cls(Kind.SHARP, positions, channels)

    @classmethod
    def from_ggr(
        cls, source: 'Source', foreground: ColourLike = BLACK, background: ColourLike = WHITE, *, strict: bool = False
    ) -> 'Ramp':
        """Reads a GIMP gradient as GIMP itself saves it: a path, or the bytes themselves. Foreground and background are what a
        segment may name in place of a colour of its own. Strict, only document 01's files are read: short numbers, names in
        ASCII, no curved segment. Refused with 2 and with 10 to 18, which have the line.

        >>> text = b'GIMP Gradient\\nName: Shelf\\n1\\n0 0.5 1 0 0 0 1 1 1 1 1 0 0\\n'
        >>> shelf = Ramp.from_ggr(text)
        >>> shelf.name, shelf(0.25)
        ('Shelf', Colour(r=0.25, g=0.25, b=0.25, a=1.0))
        """
        from .reading import ramp_of_ggr

        return ramp_of_ggr(source, Colour.of(foreground), Colour.of(background), strict)

    @classmethod
    def from_cpt(cls, source: 'Source') -> 'Ramp':
        """Reads a GMT colour table of RGB: a path, or the bytes themselves. `Unread` has the line that is not as it must be.

        >>> Ramp.from_cpt(b'-6000 8 16 48 0 216 240 248\\n').domain
        (-6000.0, 0.0)
        """
        from .cpt import ramp_of_cpt

        return ramp_of_cpt(source)

    @classmethod
    def from_text(cls, source: 'Source') -> 'Ramp':
        """Reads a ramp of the tool `flatten`: a path, or the bytes themselves."""
        from .reading import ramp_of_text

        return ramp_of_text(source)

    # ---- what it is

    @property
    def positions(self) -> Tuple[float, ...]:
        """The position of each stop; left, middle and right of each GIMP segment."""
        return tuple(self._positions)

    @property
    def colours(self) -> Tuple[Colour, ...]:
        """The colour of each stop; the left and the right one of each GIMP segment."""
        return colours_of(self._channels)

    @property
    def codes(self) -> bytes:
        """Blending and colouring of each GIMP segment."""
        return self._codes.tobytes()

    def __len__(self) -> int:
        """How many stops or segments it has."""
        return len(self._codes) // 2 if self.kind.is_gimp else len(self._positions)

    def __eq__(self, other: object) -> bool:
        return isinstance(other, Ramp) and self._lent == other._lent

    __hash__ = None  # type: ignore[assignment]

    def __repr__(self) -> str:
        what = 'segments' if self.kind.is_gimp else 'stops'
        return f'<{self.kind.name.lower()} ramp of {len(self)} {what} from {self.domain[0]:g} to {self.domain[1]:g}>'

    # ---- edits

    def refresh(self, record: 'Record', edit: 'Edit') -> 'Ramp':
        """The ramp with an edit made. Those cells of this ramp's record that the edit touches are done again, so that the
        record is the one of the new ramp. Refused with 20, 6, 1, 3 as `Edit` says: then the record stays as it was.

        >>> from guineaplume import Edit
        >>> ramp = Ramp.linear([0, 0.5, 1], ['#000', '#ccc', '#fff'])
        >>> record = ramp.sample()
        >>> ramp = ramp.refresh(record, Edit.move(1, 0.25))
        >>> ramp.positions, record == ramp.sample()
        ((0.0, 0.25, 1.0), True)
        """
        told = zeros('Q', 1)
        fine('edit_told', *self._lent, *edit._plain, record.threshold, *record._lent, told)
        record.evaluations = told[0]
        return edit.made_in(self)

    def refresh_list(self, record: 'Record', edit: 'Edit') -> Tuple['Ramp', 'List']:
        """The same, and the list of the new ramp; its evaluations are those of both. After 8 and 9 the record is the new ramp's
        all the same; `Edit.made_in` gives that ramp."""
        from .lists import made

        changed = made('edit_list_told', *self._lent, *edit._plain, record.threshold, *record._lent)
        return edit.made_in(self), changed
