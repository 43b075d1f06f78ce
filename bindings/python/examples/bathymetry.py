#!/usr/bin/env python3
"""Paints a small sea by a ramp of depths, and by the list that stands for it: bathymetry.py [OUT.png]. It needs numpy and
matplotlib. The sea is made up: a coast, a shelf, a slope, a seamount and a trench."""

import sys

import matplotlib

matplotlib.use('Agg')
import matplotlib.pyplot as plt
import numpy as np
from guineaplume import Ramp

# the tints of an atlas, in metres below the sea
SEA = Ramp.smoothstep(
    [-7000, -5500, -4000, -3000, -2000, -1000, -500, -200, -100, -50, 0],
    ['#06102e', '#0b1d4a', '#123066', '#18427d', '#215691', '#3070a6', '#4a8cbb', '#6fabcf', '#97c8df', '#bfe0ec', '#e3f4f8'],
)


def depths(rows, columns):
    """Metres below the sea, at most 0; above it, on land, not-a-number."""
    y, x = np.mgrid[0 : 1 : rows * 1j, 0 : 1.5 : columns * 1j]
    coast = 0.18 + 0.05 * np.sin(7 * y) + 0.03 * np.sin(17 * y + 1)
    off = x - coast
    sea = -180 * np.clip(off / 0.25, 0, 1) ** 0.8 - 4300 / (1 + np.exp(-(off - 0.42) / 0.05))
    sea += 3900 * np.exp(-((x - 0.98) ** 2 + (y - 0.62) ** 2) / 0.004)
    sea -= 2600 * np.exp(-((x - 1.33 + 0.12 * y) ** 2) / 0.0016)
    sea += 60 * np.sin(23 * x) * np.sin(19 * y) * np.clip(off / 0.4, 0, 1)
    return np.where(off < 0, np.nan, np.clip(sea, -7000, 0))


def draw(axes, grid, painted, title):
    painted[np.isnan(grid)] = (0.93, 0.90, 0.82, 1)
    axes.imshow(painted, extent=(0, 150, 0, 100))
    axes.contour(grid[::-1], levels=[-4000, -2000, -1000, -200], colors='k', linewidths=0.4, linestyles='solid',
                 extent=(0, 150, 0, 100))  # fmt: skip
    axes.set_title(title)
    axes.set_xlabel('km')


def main():
    out = sys.argv[1] if len(sys.argv) > 1 else 'bathymetry.png'
    grid = depths(400, 600)
    stops = SEA.within()
    print(f'{len(SEA)} tints, {len(stops)} stops; judged: {SEA.judge(stops)}; every tint kept: {SEA.apart(stops).is_kept}')
    figure, (left, right) = plt.subplots(1, 2, figsize=(11, 4.2), sharey=True, layout='constrained')
    draw(left, grid, SEA(grid), 'painted by the ramp')
    draw(right, grid, stops(grid), f'painted by its list of {len(stops)} stops')
    shades = plt.cm.ScalarMappable(plt.Normalize(*SEA.domain), stops.to_matplotlib())
    figure.colorbar(shades, ax=[left, right], label='metres', shrink=0.8)
    figure.savefig(out, dpi=100)
    print(f'the two differ by at most {np.nanmax(np.abs(SEA(grid) - stops(grid))):.4f} in a channel; see {out}')


if __name__ == '__main__':
    main()
