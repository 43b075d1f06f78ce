"""Finds the shared library and calls it. The library has no state and takes nothing from the heap; while a call runs, other
threads of Python run too."""

from __future__ import annotations

import ctypes
import os
from array import array
from pathlib import Path
from typing import Any, Callable, Dict, Iterator

from ._exports import bound

FILE = 'libcolorgrad_c.so.0'
FOLDER = 'GUINEAPLUME_LIB'

# the version of this package, and of the library that it calls
VERSION = '0.2.0'

_HERE = Path(__file__).resolve().parent


def _places() -> Iterator[str]:
    """Where the library may be: in the folder that $GUINEAPLUME_LIB names, and nowhere else where it is set; in this package;
    where `./library` leaves it in the repository that this package is a part of; where the system looks."""
    named = os.environ.get(FOLDER)
    if named:
        yield str(Path(named) / FILE)
        return
    yield str(_HERE / FILE)
    if _HERE.parts[-4:-1] == ('bindings', 'python', 'src'):
        yield str(_HERE.parents[3] / 'target' / 'library' / FILE)
    yield FILE


def _load() -> ctypes.CDLL:
    tried = []
    for place in _places():
        if place != FILE and not os.path.exists(place):
            tried.append(f'{place}: not there')
            continue
        try:
            return ctypes.CDLL(place)
        except OSError as error:
            tried.append(f'{place}: {error}')
    raise ImportError(
        f'{FILE} was not found: type ./library at the root of the repository, or name a folder that has it by ${FOLDER} '
        f'({"; ".join(tried)})'
    )


def version_text(number: int) -> str:
    return f'{number // 1_000_000}.{number // 1000 % 1000}.{number % 1000}'


_LIBRARY = _load()
_CALLS: Dict[str, Callable[..., Any]] = {}


def call(name: str, *given: Any) -> Any:
    """Calls an export: its name without `colorgrad_`."""
    found = _CALLS.get(name)
    if found is None:
        found = _CALLS[name] = bound(_LIBRARY, 'colorgrad_' + name)
    return found(*given)


def library_version() -> str:
    """The version of the library, as it says itself.

    >>> library_version() == VERSION
    True
    """
    return version_text(call('version'))


# another version may take other arguments, which nothing else would notice
if library_version() != VERSION:
    raise ImportError(f'{_LIBRARY._name} is of version {library_version()}, and this package of {VERSION}')


def zeros(code: str, count: int) -> array[Any]:
    """Room for so many items."""
    return array(code, [0]) * count


def text_of(name: str, *given: Any) -> str:
    """The text that a call writes, which is asked first how long it is."""
    out = zeros('B', call(name, *given, zeros('B', 0)))
    call(name, *given, out)
    return out.tobytes().decode('utf-8')
