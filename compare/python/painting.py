#!/usr/bin/env python3
"""Painting a million points from Python beside the C call: compare/python/painting.py [REPETITIONS]. It needs numpy, a C compiler and
the library that `./library` makes ($GUINEAPLUME_LIB names another folder).

The C call is timed inside C, by a function of three lines that this script compiles, on the same points and into a buffer that
is used before. Medians of interleaved repetitions, and of the ratios within each, in processor time of the thread."""
import ctypes
import os
import statistics
import subprocess
import sys
import tempfile
import time
from pathlib import Path

ROOT = Path(__file__).resolve().parents[2]
os.environ.setdefault('GUINEAPLUME_LIB', str(ROOT / 'target' / 'library'))
sys.path.insert(0, str(ROOT / 'bindings' / 'python' / 'src'))

import numpy as np
from guineaplume import Ramp

POINTS = 1_000_000

KINDS = {'linear': Ramp.linear, 'smoothstep': Ramp.smoothstep, 'basis': Ramp.basis, 'Catmull-Rom': Ramp.catmull_rom}

TIMED = r'''
#include "colorgrad_calls.h"
#include <time.h>
static double now(void) { struct timespec t; clock_gettime(CLOCK_THREAD_CPUTIME_ID, &t); return t.tv_sec + t.tv_nsec * 1e-9; }
double timed(uint32_t kind, const float *positions, size_t stops, const float *channels, const float *ts, size_t n, float *out)
{
    double start = now();
    uint32_t refusal = colorgrad_paint(kind, positions, stops, channels, 4 * stops, 0, 0, ts, n, out, 4 * n);
    return refusal ? -1 : now() - start;
}
'''


def compiled(folder):
    source, made = Path(folder, 'timed.c'), Path(folder, 'timed.so')
    source.write_text(TIMED)
    words = [f'-I{ROOT}/include', str(source), f'{os.environ["GUINEAPLUME_LIB"]}/libcolorgrad_c.so.0', '-o', str(made)]
    subprocess.run([os.environ.get('CC', 'cc'), '-O2', '-shared', '-fPIC', *words], check=True)
    timed = ctypes.CDLL(str(made)).timed
    timed.restype = ctypes.c_double
    return timed


def by_python(paint):
    start = time.thread_time()
    paint()
    return time.thread_time() - start


def measure(timed, make, stops, repetitions):
    chance = np.random.default_rng(stops)
    ramp = make(np.linspace(0, 1, stops), chance.random((stops, 4)))
    kind, positions, channels, _ = ramp._lent
    ts = np.linspace(0, 1, POINTS, dtype=np.float32)
    doubles, out = ts.astype(np.float64), np.zeros((POINTS, 4), np.float32)
    address = lambda numbers: ctypes.c_void_p(numbers.buffer_info()[0])
    given = (kind, address(positions), ctypes.c_size_t(stops), address(channels))
    own = lambda: timed(*given, ctypes.c_void_p(ts.ctypes.data), ctypes.c_size_t(POINTS), ctypes.c_void_p(out.ctypes.data))
    forms = [own, lambda: by_python(lambda: ramp.paint(ts, out)), lambda: by_python(lambda: ramp(ts)),
             lambda: by_python(lambda: ramp(doubles))]
    times = [[form() for form in forms] for _ in range(repetitions)]
    ratios = [[one / first for one in others] for first, *others in times]
    return statistics.median(first for first, *_ in times), [statistics.median(column) for column in zip(*ratios)]


def main():
    repetitions = int(sys.argv[1]) if len(sys.argv) > 1 else 21
    with tempfile.TemporaryDirectory() as folder:
        timed = compiled(folder)
        print('| ramp | the C call, ms | `paint` into a lent array | `ramp(x)`, float32 | `ramp(x)`, float64 |')
        print('|---|---|---|---|---|')
        for name, make in KINDS.items():
            for stops in (2, 64, 512):
                first, ratios = measure(timed, make, stops, repetitions)
                print(f'| {name}, {stops} stops | {1000 * first:.2f} | ' + ' | '.join(f'{ratio:.2f}' for ratio in ratios) + ' |')


if __name__ == '__main__':
    main()
