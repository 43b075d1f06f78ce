"""What every ramp can be asked, and every list, which is a ramp too."""

from __future__ import annotations

from array import array
from typing import TYPE_CHECKING, Any, Iterable, Iterator, Optional, Sequence, Tuple, overload

from ._library import zeros
from .colour import Colour, colours_of, floats
from .refusal import fine

if TYPE_CHECKING:
    import numpy as np
    from numpy.typing import NDArray

    from .apart import Apart
    from .lists import List
    from .record import Record
    from .verdict import Verdict

# what is taken where no threshold, no hold and no step is given
THRESHOLD = 0.007
HOLD = 0.001
STEP = 0.02


class Gradient:
    """Colours along a line of numbers."""

    __slots__ = ()

    @property
    def _lent(self) -> Tuple[int, array[float], array[float], array[int]]:
        """Kind, positions, channels, codes."""
        raise NotImplementedError

    @property
    def _depths(self) -> array[float]:
        """Its own positions."""
        return self._lent[1]

    @property
    def domain(self) -> Tuple[float, float]:
        """The first and the last position; 0 and 1 for GIMP gradients."""
        ends = zeros('f', 2)
        fine('domain_told', *self._lent, ends)
        return ends[0], ends[1]

    # ---- colours

    def at(self, t: float) -> Colour:
        """The colour at t, for any t; (0, 0, 0, 1) at not-a-number, and outside a GIMP gradient's domain."""
        colour = zeros('f', 4)
        fine('at_told', *self._lent, t, colour)
        return Colour._make(colour)

    # an array is a sequence too, and comes first
    @overload
    def __call__(self, x: NDArray[Any]) -> NDArray[np.float32]: ...  # type: ignore

    @overload
    def __call__(self, x: float) -> Colour: ...

    @overload
    def __call__(self, x: Iterable[float]) -> Sequence[Colour]: ...

    def __call__(self, x: Any) -> Any:
        """Of a number its colour, of a sequence of numbers a list of colours, of an array an array, as `paint` gives it.

        >>> from guineaplume import Ramp
        >>> grey = Ramp.linear([0, 1], ['#000', '#fff'])
        >>> grey(0.5)
        Colour(r=0.5, g=0.5, b=0.5, a=1.0)
        >>> [colour.r for colour in grey([0.25, 0.75])]
        [0.25, 0.75]
        """
        dimensions = getattr(x, 'ndim', None)
        if dimensions or isinstance(x, array):
            return self.paint(x)
        is_one = dimensions == 0 or not isinstance(x, Iterable)
        return self.at(x) if is_one else list(colours_of(self.paint(floats(x))))

    def paint(self, points: Any, out: Optional[Any] = None) -> Any:
        """The colours at many points, in one call. Of an array of numpy, of any shape, an array of that shape and 4 channels;
        of any other numbers an `array` of f32, four for each point. `out`, an array of float32, is written in place of a
        new one, and answered.

        >>> from guineaplume import Ramp
        >>> list(Ramp.linear([0, 1], ['#000', '#fff']).paint([0.25]))
        [0.25, 0.25, 0.25, 1.0]
        """
        if hasattr(points, '__array__'):
            from ._arrays import painted

            return painted(self._lent, points, out)
        points = points if isinstance(points, array) and points.typecode == 'f' else floats(points)
        out = zeros('f', 4 * len(points)) if out is None else out
        if out is points:
            raise ValueError('out is the points themselves')
        fine('paint', *self._lent, points, out)
        return out

    def to_matplotlib(self, name: str = 'guineaplume', levels: int = 256) -> Any:
        """A colour map for matplotlib: the colours at so many points, evenly spaced over the domain and clamped to 0..1. Its
        ends are those of the domain: `imshow(depths, cmap=ramp.to_matplotlib(), vmin=ramp.domain[0], vmax=ramp.domain[1])`.
        """
        from .plotting import colour_map

        return colour_map(self, name, levels)

    # ---- records and lists

    def sample(self, threshold: float = THRESHOLD) -> 'Record':
        """Looks at the ramp, and leaves what it saw in a record. Refused with 4 where the domain reaches beyond 1e38."""
        from .record import Record

        record, told = Record(), zeros('Q', 1)
        fine('sample_told', *self._lent, threshold, *record._lent, told)
        record.evaluations = told[0]
        return record

    def flatten(self, threshold: float = THRESHOLD) -> 'List':
        """The list of stops that the published rules give; its `record` is the one that it was made of. A band of colour that
        is narrower than half a 36th of the domain can be lost, whatever the threshold: `within` keeps it. Refused with 4, 8.

        >>> from guineaplume import Ramp
        >>> grey = Ramp.linear([0, 0.5, 1], ['#000', '#808080', '#fff']).flatten()
        >>> len(grey), grey.evaluations
        (2, 215)
        """
        from .lists import recorded

        return recorded('flatten_told', self._lent, threshold)

    def within(self, hold: float = HOLD, threshold: float = THRESHOLD) -> 'List':
        """A list that keeps its word: at the ramp's own positions, and just beside each, it is within the hold of the ramp,
        and `judge` says yes to it. Refused with 4; 7 where it would have more than 4,609 stops; 8; 21 for colours beyond
        16,382.

        >>> from guineaplume import Ramp
        >>> band = Ramp.linear([0, 0.389, 0.3891, 0.4026, 0.4027, 1], ['#000', '#636363', '#f00', '#f00', '#676767', '#fff'])
        >>> len(band.flatten()), len(band.within())
        (2, 6)
        """
        from .lists import recorded

        return recorded('flatten_within_told', self._lent, threshold, hold)

    def thin(self, record: 'Record') -> 'List':
        """The list of a record, at the record's threshold. Refused with 4, 8; 20 where the record is of another domain; 9 where
        it is of another ramp and falls."""
        from .lists import made

        return made('thin_told', *self._lent, record.threshold, *record._lent)

    def thin_within(self, record: 'Record', hold: float = HOLD) -> 'List':
        """The list of a record that keeps its word."""
        from .lists import made

        return made('thin_within_told', *self._lent, record.threshold, hold, *record._lent)

    def stops_of(self, record: 'Record') -> Iterator[Tuple[float, Colour]]:
        """The stops of the list of a record, one at a time: they are those of `thin`. A refusal is raised after the stops
        before it.

        >>> from guineaplume import Ramp
        >>> ramp = Ramp.smoothstep([0, 1], ['#000', '#fff'])
        >>> record = ramp.sample()
        >>> list(ramp.stops_of(record)) == list(ramp.thin(record))
        True
        """
        stop = zeros('f', 5)
        place: Tuple[int, ...] = (0, 0, 0)
        while True:
            told = zeros('Q', 5)
            fine('next_stop_told', *self._lent, record.threshold, *record._lent, *place, told, stop)
            if not told[0]:
                return
            yield stop[0], Colour._make(stop[1:])
            place = tuple(told[2:])

    # ---- a list that was made elsewhere

    def judge(self, offered: 'List', threshold: float = THRESHOLD) -> 'Verdict':
        """Whether a list shows this ramp within the threshold, and what is wrong if not. Refused with 4.

        >>> from guineaplume import List, Ramp
        >>> ramp = Ramp.linear([0, 0.5, 1], ['#000', '#fff', '#fff'])
        >>> bool(ramp.judge(ramp.within()))
        True
        >>> print(ramp.judge(List([0, 1], ['#000', '#fff'])))
        the list's colour is too far from the ramp's at 0.027777778 (point 0 of row 1)
        """
        from .verdict import verdict_of

        return verdict_of(self._lent, threshold, offered)

    def apart(
        self, offered: 'List', depths: Optional[Iterable[float]] = None, step: float = STEP, threshold: float = THRESHOLD
    ) -> 'Apart':
        """Which depths of this ramp became one in a list, and at which the list is farther off than the threshold. Two depths
        are told apart where their colours differ by more than the step. Depths that are not given are the ramp's own
        positions. Refused with 4; 22 where the list is no list of this ramp, as `judge` says; 23 where there are no depths, or
        one is not finite, outside the domain or below the one before it; 24 where the step is not finite or below 0.

        >>> from guineaplume import Ramp
        >>> band = Ramp.linear([0, 0.389, 0.3891, 0.4026, 0.4027, 1], ['#000', '#636363', '#f00', '#f00', '#676767', '#fff'])
        >>> bool(band.judge(band.flatten())), band.apart(band.flatten()).merged
        (True, 2)
        >>> print(band.apart(band.flatten(), [0, 0.3891]))
        2 depths: 1 moved, 0 merged with the one before
        0: as in the ramp
        0.3891: moved
        >>> band.apart(band.within()).is_kept
        True
        """
        from .apart import apart_of

        given = self._depths if depths is None else floats(depths)
        return apart_of(self._lent, threshold, step, given, offered)
