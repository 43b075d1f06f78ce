"""Why an answer was refused."""

from __future__ import annotations

from enum import IntEnum

from ._library import call, text_of


class Reason(IntEnum):
    """The numbers of refusals, the same in every face of the library. Its own words say what each means.

    >>> print(Reason.FALLING.words)
    a stop's position is below that of the stop before it
    """

    MISSHAPEN = 1
    NOT_FINITE = 2
    FALLING = 3
    FAR_DOMAIN = 4
    BAD_RECORD = 5
    BAD_EDIT = 6
    NO_ROOM = 7
    LIST_NOT_FINITE = 8
    LIST_FALLING = 9
    NOT_A_TEXT = 10
    BAD_HEADER = 11
    BAD_SEGMENT = 12
    FEW_LINES = 13
    NO_SEGMENT = 14
    TOO_MANY_SEGMENTS = 15
    NOT_CARRIED = 16
    NOT_BUILT = 17
    TORN = 18
    UNWRITABLE = 19
    OTHER_THRESHOLD = 20
    NOT_SHOWN = 21
    BAD_LIST = 22
    BAD_DEPTHS = 23
    BAD_STEP = 24

    @property
    def words(self) -> str:
        """The library's words for it."""
        return text_of('message_told', int(self))


class Refusal(ValueError):
    """What the library cannot do: its number (a `Reason`), the library's words for it, and the line of a file that is to blame,
    0 where none is.

    >>> from guineaplume import Ramp
    >>> try:
    ...     Ramp.linear([1, 0], ['#000', '#fff'])
    ... except Refusal as refusal:
    ...     print(int(refusal.number), '-', refusal.words)
    3 - a stop's position is below that of the stop before it
    """

    def __init__(self, number: int, line: int = 0) -> None:
        super().__init__(number, line)
        self.number = Reason(number)
        self.line = line

    @property
    def words(self) -> str:
        """The library's words for it."""
        return self.number.words

    def __str__(self) -> str:
        at = f' (line {self.line})' if self.line else ''
        return f'refused {int(self.number)}: {self.words}{at}'


class Unread(ValueError):
    """A text that is not of its format: the line, and what was expected there. Nothing of it came to the library."""

    def __init__(self, line: int, words: str) -> None:
        super().__init__(line, words)
        self.line = line
        self.words = words

    def __str__(self) -> str:
        return f'line {self.line}: {self.words}'


def fine(name: str, *given: object) -> None:
    """Calls an export that answers a refusal, and raises it where there is one."""
    number = call(name, *given)
    if number:
        raise Refusal(number)
