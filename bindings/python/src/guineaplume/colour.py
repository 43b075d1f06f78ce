"""A colour, and channels of many."""

from __future__ import annotations

import math
import warnings
from array import array
from typing import Any, NamedTuple, Sequence, Tuple, Union


class Colour(NamedTuple):
    """Red, green, blue and alpha, each usually from 0 to 1; nothing is clamped.

    >>> Colour.of('#ff8000')
    Colour(r=1.0, g=0.501960813999176, b=0.0, a=1.0)
    >>> Colour.of((0.2, 0.4, 0.6)).a
    1.0
    """

    r: float
    g: float
    b: float
    a: float = 1.0

    @classmethod
    def of(cls, given: 'ColourLike') -> 'Colour':
        """Of three or four channels, or of #rgb, #rrggbb, #rrggbbaa; channels are taken as f32."""
        channels = _of_hex(given) if isinstance(given, str) else [float(channel) for channel in given]
        if len(channels) not in (3, 4):
            raise ValueError(f'a colour has three or four channels: {given!r}')
        return cls(*array('f', channels))

    @classmethod
    def of_bytes(cls, r: float, g: float, b: float, a: float = 255) -> 'Colour':
        """Of channels from 0 to 255.

        >>> Colour.of_bytes(255, 128, 0) == Colour.of('#ff8000')
        True
        """
        return cls.of([channel / 255 for channel in (r, g, b, a)])

    def to_bytes(self) -> Tuple[int, int, int, int]:
        """Each channel as a byte: clamped to 0..1, times 255, to the nearest, ties to even.

        >>> Colour(0.5, 2.0, -1.0).to_bytes()
        (128, 255, 0, 255)
        """
        red, green, blue, alpha = (_byte(channel) for channel in self)
        return red, green, blue, alpha

    def to_hex(self) -> str:
        """#rrggbb, and #rrggbbaa where alpha is not 255.

        >>> Colour(1.0, 0.5, 0.0).to_hex()
        '#ff8000'
        """
        parts = self.to_bytes()
        return '#' + ''.join(f'{part:02x}' for part in parts[: 3 if parts[3] == 255 else 4])


# more than this is no channel that was rounded up
_BRIGHT = 1.001

ColourLike = Union[str, Sequence[float], Colour]


def _byte(channel: float) -> int:
    # the product of an f32 and 255 is exact in Python's numbers, and `round` takes ties to even
    return 0 if math.isnan(channel) else round(min(max(channel, 0.0), 1.0) * 255)


def _of_hex(text: str) -> Sequence[float]:
    digits = text[1:]
    if not text.startswith('#') or len(digits) not in (3, 4, 6, 8):
        raise ValueError(f'a colour is written #rgb, #rrggbb or #rrggbbaa: {text!r}')
    if len(digits) < 6:
        digits = ''.join(2 * digit for digit in digits)
    try:
        return [part / 255 for part in bytes.fromhex(digits)]
    except ValueError:
        raise ValueError(f'a colour has hexadecimal digits: {text!r}') from None


def channels_of(colours: Any) -> array[float]:
    """Four channels of each colour, one after the other. An array of three or four columns is taken as it is."""
    if hasattr(colours, '__array__'):
        from ._arrays import channels_of_array

        return channels_of_array(colours)
    return array('f', [channel for colour in colours for channel in Colour.of(colour)])


def warn_of_bytes(channels: array[float], level: int) -> None:
    """Channels that run to 255 count as 1, and such a ramp is flattened to its ends: that is said, though nothing is refused."""
    brightest = max(channels, default=0.0)
    if brightest > _BRIGHT:
        words = f'a channel is {brightest:g}, and counts as 1 in lists: if channels run to 255, take Colour.of_bytes'
        warnings.warn(words, stacklevel=level + 1)


def colours_of(channels: array[float]) -> Tuple[Colour, ...]:
    """The colours of such channels."""
    return tuple(map(Colour._make, zip(*[iter(channels)] * 4)))


def floats(numbers: Any) -> array[float]:
    """Numbers as f32, in an array of our own."""
    if hasattr(numbers, '__array__'):
        from ._arrays import floats_of_array

        return floats_of_array(numbers)
    return array('f', numbers)
