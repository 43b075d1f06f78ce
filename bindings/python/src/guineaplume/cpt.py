"""GMT colour tables in: slices of two values with a colour each, RGB from 0 to 255, with slashes or spaces, or a name of those
that GMT's own tables use."""

from __future__ import annotations

import re
from typing import List, Tuple

from .ramp import Kind, Ramp
from .reading import Row, Source, lines_of, number, ramp_of_rows
from .refusal import Unread

_EXPECTED = "'z r g b z r g b' or 'z r/g/b z r/g/b'"

# the colours below the table, above it and of no value, which are no part of the ramp
_APART = ('B', 'F', 'N')

# what may stand last: which end of the slice is labelled
_LABELLED = ('L', 'U', 'B')

# X11's, of which green is the full one and gray is 190
_NAMES = {
    'black': '000000',
    'white': 'ffffff',
    'red': 'ff0000',
    'green': '00ff00',
    'blue': '0000ff',
    'cyan': '00ffff',
    'magenta': 'ff00ff',
    'yellow': 'ffff00',
    'gray': 'bebebe',
    'bisque2': 'eed5b7',
    'burlywood': 'deb887',
    'darkorange1': 'ff7f00',
    'darkorange3': 'cd6600',
    'ivory2': 'eeeee0',
    'mediumaquamarine': '66cdaa',
    'mediumseagreen': '3cb371',
    'saddlebrown': '8b4513',
    'snow': 'fffafa',
}

End = Tuple[float, Tuple[float, ...]]


def _check_model(line: int, comment: str) -> None:
    """A line `# COLOR_MODEL = ..` says what the numbers of the colours are."""
    key, _, value = comment.partition('=')
    model = value.strip().lstrip('+')
    if key.strip() == 'COLOR_MODEL' and model.lower() != 'rgb':
        raise Unread(line, f'expected colours of the model RGB; found {model!r}')


def _end(line: int, half: List[str]) -> End:
    if len(half) != 4:
        raise Unread(line, f'expected {_EXPECTED}; found {"/".join(half[1:])!r}')
    value, *channels = (number(line, field, _EXPECTED) for field in half)
    for channel in channels:
        if not 0 <= channel <= 255:
            raise Unread(line, f'expected channels from 0 to 255; found {channel:g}')
    # the quotient is rounded once, to f32, where it is stored
    return value, (*(channel / 255 for channel in channels), 1.0)


def _channels(field: str) -> List[str]:
    """A colour in one field; gray0 to gray100 are hundredths, as X11 rounds them."""
    hundredths = re.fullmatch('gray([0-9]{1,2}|100)', field)
    if hundredths:
        return 3 * [str(int(int(hundredths.group(1)) * 2.55 + 0.5))]
    named = _NAMES.get(field)
    return [str(channel) for channel in bytes.fromhex(named)] if named else field.split('/')


def _slice(line: int, fields: List[str]) -> Tuple[End, End]:
    if fields[-1] in _LABELLED:
        fields = fields[:-1]
    if len(fields) == 8:
        return _end(line, fields[:4]), _end(line, fields[4:])
    if len(fields) == 4:
        return _end(line, [fields[0], *_channels(fields[1])]), _end(line, [fields[2], *_channels(fields[3])])
    raise Unread(line, f'expected {_EXPECTED}; found {len(fields)} fields')


def _add(rows: List[Row], line: int, start: End, end: End) -> None:
    """A slice starts where the one before it ends. Where it starts in another colour, the value comes twice."""
    if rows and rows[-1][1] != start[0]:
        raise Unread(line, f'expected a slice from {rows[-1][1]:g} on, where the one before it ends; found {start[0]:g}')
    if not rows or rows[-1][2] != start[1]:
        rows.append((line, *start))
    rows.append((line, *end))


def ramp_of_cpt(source: Source) -> Ramp:
    rows: List[Row] = []
    for line, said in enumerate(lines_of(source), 1):
        # what comes after ; is a label
        said = said.split(';')[0]
        if said.startswith('#'):
            _check_model(line, said[1:])
            continue
        fields = said.split()
        if fields and fields[0] not in _APART:
            _add(rows, line, *_slice(line, fields))
    if not rows:
        raise Unread(0, f'expected {_EXPECTED}; the table has no slice')
    return ramp_of_rows(Kind.LINEAR, rows)
