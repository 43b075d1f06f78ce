"""Arrays of numpy, which is asked for only where one is handed in. No number of an array goes through Python."""

from __future__ import annotations

from array import array
from typing import Any, Optional, Tuple

import numpy as np

from ._exports import Lent
from .refusal import fine


def _lent(numbers: Any) -> Lent:
    return Lent(numbers.__array_interface__['data'][0], numbers.size, 'f')


def floats_of_array(numbers: Any) -> array[float]:
    return array('f', np.asarray(numbers, dtype=np.float32).tobytes())


def channels_of_array(colours: Any) -> array[float]:
    given = np.asarray(colours, dtype=np.float32)
    if given.ndim != 2 or given.shape[1] not in (3, 4):
        raise ValueError(f'colours are an array of three or four columns, and this has the shape {given.shape}')
    if given.shape[1] == 3:
        given = np.column_stack([given, np.ones(len(given), dtype=np.float32)])
    return array('f', given.tobytes())


def _room(given: Any, shape: Tuple[int, ...], points: Any) -> Any:
    """The array that the caller lends, where the colours can be written to it."""
    fits = isinstance(given, np.ndarray) and given.dtype == np.float32 and given.shape == shape
    if not (fits and given.flags.c_contiguous and given.flags.writeable):
        raise ValueError(f'out is a writeable float32 array of the shape {shape}, its rows one after the other')
    if np.may_share_memory(given, points):
        raise ValueError('out shares memory with the points')
    return given


def painted(ramp: Tuple[Any, ...], points: Any, out: Optional[Any] = None) -> Any:
    """The colours at the points: an array of one dimension more, of 4 channels. Points that are float32, one after the other,
    are read where they are."""
    ts = np.ascontiguousarray(points, dtype=np.float32)
    shape = ts.shape + (4,)
    out = np.empty(shape, dtype=np.float32) if out is None else _room(out, shape, ts)
    fine('paint', *ramp, _lent(ts), _lent(out))
    return out
