"""Files in: GIMP gradients, which the library reads, and the tool's text."""

from __future__ import annotations

from array import array
from os import PathLike
from pathlib import Path
from typing import List, Tuple, Union

from ._library import call, text_of, zeros
from .colour import Colour, warn_of_bytes
from .leaves import token
from .ramp import Kind, Ramp
from .refusal import Refusal, Unread

MOST_SEGMENTS = 256

# a path, or the bytes of the file
Source = Union[str, 'PathLike[str]', bytes, bytearray]

# a stop as it stands in a file: its line, its position and its channels
Row = Tuple[int, float, Tuple[float, ...]]

_MARK = b'\xef\xbb\xbf'

KINDS = {
    'linear': Kind.LINEAR,
    'smoothstep': Kind.SMOOTHSTEP,
    'sharp': Kind.SHARP,
    'basis': Kind.BASIS,
    'catmull-rom': Kind.CATMULL_ROM,
}


def bytes_of(source: Source) -> bytes:
    return bytes(source) if isinstance(source, (bytes, bytearray)) else Path(source).read_bytes()


def lines_of(source: Source) -> List[str]:
    """Its lines: they end at LF, and a CR just before it goes too. A byte-order mark at the start goes."""
    text = bytes_of(source)
    text = text[len(_MARK) :] if text.startswith(_MARK) else text
    lines = text.decode('utf-8', 'replace').split('\n')
    return [line[:-1] if line.endswith('\r') else line for line in (lines if lines[-1] else lines[:-1])]


def number(line: int, field: str, expected: str) -> float:
    """A field read by the library's own reader."""
    read = token(field)
    if read is not None:
        return read
    comma = ', since a number has a point, not a comma' if token(field.replace(',', '.', 1)) is not None else ''
    raise Unread(line, f'expected {expected}; found {field!r}{comma}')


def ramp_of_rows(kind: Kind, rows: List[Row]) -> Ramp:
    """The ramp of such stops; a refusal has the line of the stop that is to blame."""
    positions = array('f', [position for _, position, _ in rows])
    try:
        return Ramp(kind, positions, [channel for _, _, channels in rows for channel in channels])
    except Refusal as refusal:
        falling = [i for i in range(1, len(rows)) if positions[i] < positions[i - 1]]
        line = rows[falling[0]][0] if falling and refusal.number == 3 else 0
        raise Refusal(refusal.number, line) from None


# ---- GIMP gradients

# the blending that only ramps of kind GIMP_SAVED have
CURVED = 1


def ramp_of_ggr(source: Source, foreground: Colour, background: Colour, strict: bool) -> Ramp:
    read, name_of = ('read_told', 'name') if strict else ('read_saved_told', 'name_saved')
    text = array('B', bytes_of(source))
    positions, channels = zeros('f', 3 * MOST_SEGMENTS), zeros('f', 8 * MOST_SEGMENTS)
    codes, told = zeros('B', 2 * MOST_SEGMENTS), zeros('Q', 2)
    refusal = call(read, text, *foreground, *background, positions, channels, codes, told)
    line, segments = told
    if refusal:
        raise Refusal(refusal, line)
    name = text_of(name_of, text)
    kind = Kind.GIMP_SAVED if CURVED in codes[: 2 * segments : 2] else Kind.GIMP
    return Ramp(kind, positions[: 3 * segments], channels[: 8 * segments], codes[: 2 * segments], name)


# ---- the tool's text


def ramp_of_text(source: Source) -> Ramp:
    """The ramp of a text of the tool: `kind`, perhaps `threshold`, `stop` after `stop`, perhaps `edit`, tabs between. The
    threshold and the edit are the tool's own, and not looked at."""
    lines = lines_of(source)
    names = ', '.join(KINDS)
    kind = KINDS.get(lines[0][5:]) if lines and lines[0].startswith('kind\t') else None
    if kind is None:
        raise Unread(1, f"expected 'kind', a tab and one of {names}")
    expected = "'stop' and 5 numbers parted by tabs"
    rows: List[Row] = []
    for line, said in enumerate(lines[1:], 2):
        first, *fields = said.split('\t')
        if first in ('threshold', 'edit'):
            continue
        if first != 'stop' or len(fields) != 5:
            raise Unread(line, f'expected {expected}; found {said!r}')
        position, *channels = (number(line, field, expected) for field in fields)
        rows.append((line, position, tuple(channels)))
    ramp = ramp_of_rows(kind, rows)
    warn_of_bytes(ramp._channels, 3)
    return ramp
