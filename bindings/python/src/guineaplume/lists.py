"""Lists of stops."""

from __future__ import annotations

from array import array
from typing import Any, Iterable, Iterator, Optional, Sequence, Tuple

from . import formats
from ._library import zeros
from .colour import Colour, ColourLike, channels_of, colours_of, floats
from .gradient import Gradient
from .numerals import stretched, with_edges
from .ramp import Kind, Ramp
from .record import Record
from .refusal import Reason, Refusal, fine

# stops of any list
MOST_POINTS = 4609

# what a list is called where no name is given
NAME = 'ramp'

_UNIT = (0.0, 1.0)


class List(Gradient):
    """Stops that stand for a ramp when they are mixed linearly. A ramp's `flatten` and `within` make one; `List` itself takes
    one that was made elsewhere, whatever it is, to be judged. `evaluations` is how often the rules asked for a colour, `record`
    the record that it was made of, where there is one.

    >>> from guineaplume import Ramp
    >>> made = Ramp.linear([0, 0.5, 1], ['#000', '#ccc', '#fff']).within()
    >>> [(position, colour.to_hex()) for position, colour in made]
    [(0.0, '#000000'), (0.5, '#cccccc'), (1.0, '#ffffff')]
    """

    __slots__ = ('_places', '_channels', 'evaluations', 'record')

    def __init__(self, positions: Iterable[float], colours: Iterable[ColourLike]) -> None:
        self._places, self._channels = floats(positions), channels_of(colours)
        self.evaluations = 0
        self.record: Optional[Record] = None

    @property
    def _lent(self) -> Tuple[int, array[float], array[float], array[int]]:
        return int(Kind.LINEAR), self._places, self._channels, array('B')

    @property
    def positions(self) -> Tuple[float, ...]:
        """The position of each stop."""
        return tuple(self._places)

    @property
    def colours(self) -> Tuple[Colour, ...]:
        """The colour of each stop."""
        return colours_of(self._channels)

    def __len__(self) -> int:
        return len(self._places)

    def __iter__(self) -> Iterator[Tuple[float, Colour]]:
        """Each stop with its colour."""
        return zip(self.positions, self.colours)

    def __eq__(self, other: object) -> bool:
        """Where the stops are the same, however they came about."""
        return isinstance(other, List) and self._lent == other._lent

    __hash__ = None  # type: ignore[assignment]

    def __repr__(self) -> str:
        return f'<list of {len(self)} stops>'

    def to_ramp(self) -> Ramp:
        """The list as a linear ramp. Refused with 1 where it has more than 2,048 stops."""
        return Ramp(Kind.LINEAR, self._places, self._channels)

    # ---- texts. A domain takes the stops there; ggr, svg and css run from 0 to 1 always. Text, bits and JSON have every position
    # to the last bit; in the others a hard edge is one position twice.

    def _on(self, domain: Optional[Tuple[float, float]], positions: Sequence[float]) -> formats.Stops:
        if not positions or 4 * len(positions) != len(self._channels):
            raise Refusal(Reason.MISSHAPEN)
        return list(zip(positions if domain is None else stretched(positions, domain), self.colours))

    def _exact(self, domain: Optional[Tuple[float, float]]) -> formats.Stops:
        return self._on(domain, self.positions)

    def _edged(self, domain: Optional[Tuple[float, float]]) -> formats.Stops:
        return self._on(domain, with_edges(self.positions))

    def to_text(self, domain: Optional[Tuple[float, float]] = None) -> str:
        """As the tool `flatten` takes it: every number comes back as it was. Refused with 19 where one cannot be written."""
        return formats.to_text(self._exact(domain))

    def to_bits(self, domain: Optional[Tuple[float, float]] = None) -> str:
        """As the tool `flatten` prints it: the bits of each f32 in hexadecimal."""
        return formats.to_bits(self._exact(domain), self.evaluations)

    def to_ggr(self, name: str = NAME) -> str:
        """A GIMP gradient, which Inkscape and Krita read too. Refused with 1 where it has more than 257 stops."""
        return formats.to_ggr(self._edged(_UNIT), name)

    def to_cpt(self, name: str = NAME, domain: Optional[Tuple[float, float]] = None) -> str:
        """A colour table for GMT and gdaldem; it has no alpha.

        >>> print(List([-200, 0], ['#4a90c0', '#d8f0f8']).to_cpt('shelf'), end='')
        # shelf
        # COLOR_MODEL = RGB
        -200 74 144 192 0 216 240 248
        """
        return formats.to_cpt(self._edged(domain), name)

    def to_qgis(self, domain: Optional[Tuple[float, float]] = None) -> str:
        """A colour map for QGIS."""
        return formats.to_qgis(self._edged(domain))

    def to_gdal(self, domain: Optional[Tuple[float, float]] = None) -> str:
        """A colour file for gdaldem."""
        return formats.to_gdal(self._edged(domain))

    def to_svg(self, name: str = NAME) -> str:
        """A gradient of SVG, with a band that shows it."""
        return formats.to_svg(self._edged(_UNIT), name)

    def to_css(self, name: str = NAME) -> str:
        """A gradient of CSS, as a property."""
        return formats.to_css(self._edged(_UNIT), name)

    def to_json(self, name: str = NAME, domain: Optional[Tuple[float, float]] = None) -> str:
        """JSON, for programs of one's own."""
        return formats.to_json(self._exact(domain), name)


def made(name: str, *given: Any) -> List:
    """The list that a call writes into room for every list there is."""
    places, colours, told = zeros('f', MOST_POINTS), zeros('f', 4 * MOST_POINTS), zeros('Q', 2)
    fine(name, *given, places, colours, told)
    return kept(places, colours, *told)


def kept(places: array[float], channels: array[float], stops: int, evaluations: int) -> List:
    """The first stops of such room."""
    listed = List.__new__(List)
    listed._places, listed._channels = places[:stops], channels[: 4 * stops]
    listed.evaluations, listed.record = evaluations, None
    return listed


def recorded(name: str, ramp: Tuple[Any, ...], *asked: float) -> List:
    """The list that a call makes with its record."""
    record = Record()
    listed = made(name, *ramp, *asked, *record._lent)
    listed.record, record.evaluations = record, listed.evaluations
    return listed
