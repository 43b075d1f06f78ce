"""A ramp, its record and its list, which move together."""

from __future__ import annotations

from typing import TYPE_CHECKING, Iterable, Optional

from ._library import call, zeros
from .gradient import HOLD, STEP, THRESHOLD
from .lists import MOST_POINTS, List, kept
from .ramp import Ramp
from .record import Record
from .refusal import Reason, Refusal

if TYPE_CHECKING:
    from .apart import Apart
    from .edit import Edit
    from .verdict import Verdict

# with room for one stop more than a ramp may have, so that it is refused with 1, as without a sheet
_ROOM = 2049

# of these the list alone is refused
_OF_THE_LIST = (Reason.NO_ROOM, Reason.LIST_NOT_FINITE, Reason.LIST_FALLING, Reason.NOT_SHOWN)


class Sheet:
    """A ramp, its record and its list, which stay of one ramp through any number of edits: the way to edit. A record by itself
    is its owner's affair: one of another ramp on the same domain is taken, and what is made of it is wrong without a word.

    The list keeps its word within the hold; where the hold is None it is the published one. Refused with 4 where the domain
    reaches beyond 1e38. Where the list alone is refused, with 7, 8 or 21, `list` raises that, and an edit can mend it.

    >>> from guineaplume import Edit, Ramp
    >>> sheet = Sheet(Ramp.linear([0, 0.5, 1], ['#000', '#ccc', '#fff']))
    >>> back = sheet.edit(Edit.move(1, 0.25))
    >>> sheet.ramp.positions, sheet.list == sheet.ramp.within()
    ((0.0, 0.25, 1.0), True)
    >>> _ = sheet.edit(back)
    >>> sheet.ramp.positions, bool(sheet.judge())
    ((0.0, 0.5, 1.0), True)
    """

    __slots__ = ('_ramp', '_positions', '_channels', '_record', '_asked', '_places', '_colours', '_told', '_refused')

    def __init__(self, ramp: Ramp, hold: Optional[float] = HOLD, threshold: float = THRESHOLD) -> None:
        self._ramp = ramp
        _, positions, channels, codes = ramp._lent
        self._positions = positions + zeros('f', _ROOM - len(positions))
        self._channels = channels + zeros('f', 4 * _ROOM - len(channels))
        self._record = Record()
        self._asked = (threshold, int(hold is not None), 0.0 if hold is None else hold)
        self._places, self._colours, self._told = zeros('f', MOST_POINTS), zeros('f', 4 * MOST_POINTS), zeros('Q', 3)
        self._refused: Optional[Reason] = None
        self._call('sheet_open_told')

    def _call(self, name: str, *edit: float) -> None:
        """Calls an export over what the sheet holds. What it tells is kept where anything changed."""
        kind, _, _, codes = self._ramp._lent
        told = zeros('Q', 3)
        lent = (*self._record._lent, self._places, self._colours, told)
        number = call(name, kind, self._positions, self._channels, codes, len(self._ramp), *edit, *self._asked, *lent)
        if number and number not in _OF_THE_LIST:
            raise Refusal(number)
        self._told, self._refused = told, Reason(number) if number else None
        self._record.evaluations = told[2]

    def edit(self, edit: 'Edit') -> 'Edit':
        """Makes an edit in the ramp, refreshes the record, makes the list anew, and answers the edit that undoes this one.
        Refused with 6, 1, 3 as `Edit` says: then nothing is changed. Where the list is refused, with 7, 8 or 21, the edit is
        made all the same, and `list` raises that."""
        before = self._ramp
        self._call('sheet_edit_told', *edit._plain)
        stops = self._told[0]
        self._ramp = Ramp(before.kind, self._positions[:stops], self._channels[: 4 * stops], name=before.name)
        return edit.undone_in(before)

    @property
    def ramp(self) -> Ramp:
        """The ramp as it is now; it is not changed by later edits."""
        return self._ramp

    @property
    def record(self) -> Record:
        """A copy of the record of the ramp as it is now."""
        return self._record.copy()

    @property
    def threshold(self) -> float:
        """The threshold in force."""
        return self._record.threshold

    @property
    def list(self) -> List:
        """The list of the ramp as it is now; its evaluations are those of the call that made it. Raises its refusal where it was
        refused."""
        if self._refused is not None:
            raise Refusal(self._refused)
        return kept(self._places, self._colours, *self._told[1:])

    def judge(self) -> 'Verdict':
        """What is to be said of its own list, as `Gradient.judge`."""
        return self._ramp.judge(self.list, self.threshold)

    def apart(self, depths: Optional[Iterable[float]] = None, step: float = STEP) -> 'Apart':
        """Which depths became one in its own list, as `Gradient.apart`."""
        return self._ramp.apart(self.list, depths, step, self.threshold)

    def __repr__(self) -> str:
        return f'<sheet of a {self._ramp!r}>'
