"""Numbers of f32 as texts, and stops taken from one domain to another."""

from __future__ import annotations

import math
from array import array
from decimal import ROUND_HALF_UP, Context, Decimal
from typing import Iterable, List, Sequence, Tuple

from .leaves import numeral

_LEAST_NORMAL = 2.0**-126


def f32(x: float) -> float:
    """The nearest f32."""
    return array('f', [x])[0]


def short(x: float) -> str:
    """The fewest digits that are read back as the same f32, without an exponent.

    >>> short(f32(0.1)), short(-0.0), short(f32(1e20)), short(f32(3e-8))
    ('0.1', '0', '100000000000000000000', '0.00000003')
    """
    if x == 0:
        return '0'
    # a number of up to six digits comes back from an f32, but for the least of all; nine are enough for any f32
    for digits in range(6 if abs(x) >= _LEAST_NORMAL else 1, 10):
        for written in _near(x, digits):
            if f32(float(written)) == x:
                text = format(written, 'f')
                return text.rstrip('0').rstrip('.') if '.' in text else text
    raise ValueError(f'not a finite f32: {x!r}')


def _near(x: float, digits: int) -> Iterable[Decimal]:
    # of two that are as near, the one farther from zero
    nearest = Context(prec=digits, rounding=ROUND_HALF_UP).create_decimal_from_float(x)
    yield nearest
    # above a power of two numbers lie twice as far apart as below it
    if math.frexp(x)[0] in (0.5, -0.5):
        yield nearest + Decimal(1).scaleb(nearest.adjusted() - digits + 1).copy_sign(nearest)


def for_json(x: float) -> str:
    """The fewest digits, with an exponent where there would be many zeros.

    >>> for_json(f32(3e-8)), for_json(0.5)
    ('3e-8', '0.5')
    """
    if x == 0 or 1e-6 <= abs(x) < 1e16:
        return short(x)
    written = Decimal(short(x)).normalize()
    exponent = written.adjusted()
    return f'{written.scaleb(-exponent):f}e{exponent}'


def nine_digits(x: float) -> str:
    """Nine significant digits by the library's own writer; a number that it does not write has as many as it needs."""
    return numeral(x) or short(x)


def above(x: float) -> float:
    """The next f32."""
    if x == 0:
        return array('f', (1).to_bytes(4, 'little'))[0]
    bits = array('I', array('f', [x]).tobytes())
    bits[0] += 1 if x > 0 else -1
    return array('f', bits.tobytes())[0]


def with_edges(positions: Sequence[float]) -> List[float]:
    """A list shows a hard edge by a stop at the next f32. With the position twice the same colours are seen, and tables have no
    slices of no width."""
    edges = list(positions)
    for i in range(1, len(positions)):
        if positions[i] == above(positions[i - 1]):
            edges[i] = edges[i - 1]
    return edges


def stretched(positions: Sequence[float], domain: Tuple[float, float]) -> List[float]:
    """Positions taken from their own domain to another, rounded once. Two that stood apart stay apart, if only by one f32,
    while there is room for that: a hard edge stays one. None falls.

    >>> stretched([0.0, 0.25, 1.0], (-8000, 0))
    [-8000.0, -6000.0, 0.0]
    """
    first, last = positions[0], positions[-1]
    if first == last:
        raise ValueError('all stops stand at one position: there is no domain')
    least, most = f32(domain[0]), f32(domain[1])
    if not -math.inf < least < most < math.inf:
        raise ValueError(f'a domain runs from a number to a greater one: {domain!r}')
    shares = [(position - first) / (last - first) for position in positions]
    taken = [f32(least * (1 - share) + most * share) for share in shares]
    for i in range(1, len(taken)):
        stood_apart = positions[i - 1] < positions[i]
        taken[i] = max(taken[i], min(above(taken[i - 1]), most) if stood_apart else taken[i - 1])
    return taken
