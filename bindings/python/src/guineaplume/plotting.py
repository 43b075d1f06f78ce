"""Colour maps for matplotlib, which is asked for only here."""

from __future__ import annotations

from typing import Any

from .colour import colours_of
from .gradient import Gradient


def colour_map(ramp: Gradient, name: str, levels: int) -> Any:
    from matplotlib.colors import ListedColormap  # type: ignore[import]

    if levels < 2:
        raise ValueError('a colour map has two levels or more')
    least, most = ramp.domain
    # the last point is the end itself, whatever the sum would be rounded to
    points = [least + (most - least) * i / (levels - 1) for i in range(levels - 1)] + [most]
    colours = [[min(max(channel, 0.0), 1.0) for channel in colour] for colour in colours_of(ramp.paint(points))]
    return ListedColormap(colours, name)
