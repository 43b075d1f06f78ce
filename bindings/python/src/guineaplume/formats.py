"""Lists out, in the formats of the trade, byte for byte as the program `plume` writes them. A channel becomes a byte by one
rule: clamped to 0..1, times 255, to the nearest, ties to even."""

from __future__ import annotations

import json
from array import array
from typing import List, Sequence, Tuple

from ._library import call, zeros
from .colour import Colour
from .leaves import token
from .numerals import f32, for_json, nine_digits, short, with_edges
from .refusal import Reason, Refusal

Stops = Sequence[Tuple[float, Colour]]

# stops of a list that is written as a GIMP gradient
MOST_WRITTEN = 257

# the least number other than zero that the library's writer takes
_LEAST = f32(1e-6)


def _hex(colour: Colour) -> str:
    return '#%02x%02x%02x' % colour.to_bytes()[:3]


def _is_written(x: float) -> bool:
    return token(nine_digits(x)) == x


def _seen(channel: float) -> float:
    return 0.0 if abs(channel) < _LEAST and not _is_written(channel) else channel


def to_text(stops: Stops) -> str:
    """The tool's lines. Refused with 19 where a number cannot be written in 18 digits; but the f32 just above 0, which has 45,
    is there for an edge, and such an edge is the position twice; and a channel that is so small that nobody sees it is 0."""
    lines = ['kind\tlinear']
    for (position, colour), edge in zip(stops, with_edges([position for position, _ in stops])):
        numbers = [position if _is_written(position) else edge, *map(_seen, colour)]
        if not all(map(_is_written, numbers)):
            raise Refusal(Reason.UNWRITABLE)
        lines.append('\t'.join(['stop', *map(nine_digits, numbers)]))
    return '\n'.join(lines) + '\n'


def to_bits(stops: Stops, evaluations: int) -> str:
    """As `flatten` prints it."""
    lines = [f'stops\t{len(stops)}\tevaluations\t{evaluations}']
    for position, colour in stops:
        bits = array('I', array('f', [position, *colour]).tobytes())
        lines.append('\t'.join(['stop', *(f'{number:08x}' for number in bits)]))
    return '\n'.join(lines) + '\n'


def to_ggr(stops: Stops, name: str) -> str:
    """By the library's own writer. Channels are clamped, since Inkscape refuses 1.00000012; a position or a channel below a
    millionth is 0, and so is a position whose half-way point would be."""
    positions = array('f', [0.0 if position < 2 * _LEAST else position for position, _ in stops])
    clamped = [0.0 if channel < _LEAST else min(channel, 1.0) for _, colour in stops for channel in colour]
    room = min(len(stops), MOST_WRITTEN)
    text, told = zeros('B', 34 + 213 * (room - 1) if room > 1 else 0), zeros('Q', 1)
    refusal = call('write_ggr_told', positions, array('f', clamped), text, told)
    if refusal:
        raise Refusal(refusal)
    return text[: told[0]].tobytes().decode('ascii').replace('Name: flattened\n', f'Name: {name}\n', 1)


def to_cpt(stops: Stops, name: str) -> str:
    """Spaces, whole numbers and no `B F N`, so that gdaldem reads it as GMT does. A slice of no length is left out, since GMT
    refuses it; the jump stays."""
    slices = []
    for (start, first), (end, last) in zip(stops, stops[1:]):
        if start != end:
            slices.append('%s %d %d %d %s %d %d %d\n' % (short(start), *first.to_bytes()[:3], short(end), *last.to_bytes()[:3]))
    if not slices:
        raise ValueError('all stops stand at one position: there is no slice to write')
    return f'# {name}\n# COLOR_MODEL = RGB\n' + ''.join(slices)


def to_gdal(stops: Stops) -> str:
    return ''.join('%s %d %d %d %d\n' % (short(position), *colour.to_bytes()) for position, colour in stops)


def to_qgis(stops: Stops) -> str:
    lines = ['# QGIS Generated Color Map Export File', 'INTERPOLATION:INTERPOLATED']
    for position, colour in stops:
        lines.append('%s,%d,%d,%d,%d,%s' % (short(position), *colour.to_bytes(), short(position)))
    return '\n'.join(lines) + '\n'


def to_svg(stops: Stops, name: str) -> str:
    """A linear gradient, with a band that shows it."""
    title = name.replace('&', '&amp;').replace('<', '&lt;').replace('>', '&gt;').replace('"', '&quot;')
    lines = [
        '<svg xmlns="http://www.w3.org/2000/svg" viewBox="0 0 512 64" role="img" aria-labelledby="title">',
        f'<title id="title">{title}</title>',
        '<defs>',
        '<linearGradient id="ramp">',
    ]
    for position, colour in stops:
        alpha = colour.to_bytes()[3]
        opacity = '' if alpha == 255 else f' stop-opacity="{f32(alpha / 255):.4f}"'
        lines.append(f'<stop offset="{short(position)}" stop-color="{_hex(colour)}"{opacity}/>')
    lines += ['</linearGradient>', '</defs>', '<rect width="512" height="64" fill="url(#ramp)"/>', '</svg>']
    return '\n'.join(lines) + '\n'


def to_css(stops: Stops, name: str) -> str:
    """A property of that name."""
    plain = ''.join(c if c.isascii() and (c.isalnum() or c in '-_') else '-' for c in name)
    parts = [f'{colour.to_hex()} {short(f32(position * 100))}%' for position, colour in stops]
    return ':root {\n  --%s: linear-gradient(to right,\n    %s);\n}\n' % (plain, ',\n    '.join(parts))


def to_json(stops: Stops, name: str) -> str:
    rows: List[str] = []
    for position, colour in stops:
        channels = ', '.join(map(for_json, colour))
        rows.append(f'    {{"position": {for_json(position)}, "color": [{channels}], "hex": "{_hex(colour)}"}}')
    ends = ', '.join(for_json(position) for position, _ in [*stops[:1], *stops[-1:]])
    head = f'{{\n  "name": {json.dumps(name, ensure_ascii=False)},\n  "kind": "linear",\n  "domain": [{ends}],\n  "stops": [\n'
    return head + ',\n'.join(rows) + '\n  ]\n}\n'
