"""The proved numbers below the ramps, and the tool."""

from __future__ import annotations

from array import array
from typing import Optional, Union

from ._library import call, text_of, zeros


def threshold(asked: float) -> float:
    """The threshold that the calls on records and lists take where this one is asked for.

    >>> round(threshold(float('nan')), 6), round(threshold(1.0), 6)
    (0.007, 0.035)
    """
    return float(call('threshold', asked))


def hold(asked: float, threshold: float) -> float:
    """The hold that lists which keep their word take where this one and this threshold are asked for.

    >>> round(hold(0.5, 0.007), 6)
    0.007
    """
    return float(call('hold', asked, threshold))


def root(x: float) -> float:
    """The correctly rounded square root of an f32; below zero, and of not-a-number, not-a-number.

    >>> root(2.25)
    1.5
    """
    return float(call('root', x))


def cutoff(t: float) -> float:
    """The number such that, for every s, half the root of s is above t exactly when s is above it.

    >>> root(cutoff(0.5)) / 2
    0.5
    """
    return float(call('cutoff', t))


def token(text: Union[bytes, str]) -> Optional[float]:
    """The number that a text is: a sign or none, digits with a point or none, 1 to 18 of them; None where it is none.

    >>> token('-0.25'), token('1,5')
    (-0.25, None)
    """
    value = zeros('f', 1)
    return value[0] if call('token_told', _bytes(text), value) else None


def long_token(text: Union[bytes, str]) -> Optional[float]:
    """The number that a text is as a long token: any number of digits, of which 19 count when zeros at the start and at the
    end are left off, and then perhaps an exponent; None where it is none.

    >>> long_token('0.25000000000000000000'), long_token('25e-2'), long_token('1e99')
    (0.25, 0.25, inf)
    """
    value = zeros('f', 1)
    return value[0] if call('long_token_told', _bytes(text), value) else None


def numeral(x: float) -> Optional[str]:
    """A number as it stands in a written GIMP file, of 9 significant digits; None where it cannot be written.

    >>> numeral(0.1), numeral(1e30)
    ('0.100000001', None)
    """
    return text_of('numeral', x) or None


def desk(text: Union[bytes, str]) -> bytes:
    """What the tool `flatten` prints for an input.

    >>> desk('kind\\tlinear\\nstop\\t0\\t0\\t0\\t0\\t1\\nstop\\t1\\t1\\t1\\t1\\t1\\n').splitlines()[0]
    b'stops\\t2\\tevaluations\\t215'
    >>> desk('kind\\tround\\n')
    b'unread\\t1\\n'
    """
    return text_of('desk', _bytes(text)).encode()


def _bytes(text: Union[bytes, str]) -> array[int]:
    return array('B', text.encode() if isinstance(text, str) else text)
