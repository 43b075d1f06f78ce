#!/usr/bin/env python3
"""Document 02's calls, worked out here with Python's numbers: lists written as GIMP files (v), verdicts (xi), lists one stop at a
time (xiii) and sinusoidal colours (i); and the colours of curved segments. It knows nothing of the Rattle code. Prints the records that `run sample` stores after
its own for the program `replay`, and with `--lines` the lines that the program must print for them. README.md has the records."""
import random
import sys

sys.dont_write_bytecode = True

from document import bits_of
from requests_lists import KINDS, steps, verdicts, written
from requests_segments import waves


class Words:
    """Words as `replay` reads them, and how many answers of each sort are compared."""

    def __init__(self):
        self.words, self.sorts = [], []

    def begin(self, name, records):
        self.sorts.append([name, 0])
        self.put(records)

    def answered(self, n):
        self.sorts[-1][1] += n

    def put(self, *words):
        self.words += words

    def floats(self, *numbers):
        self.put(*map(bits_of, numbers))

    def ramp(self, ramp):
        channels = [x for colour in ramp.colours for x in colour]
        self.put(KINDS.index(ramp.kind), len(ramp.positions), len(channels), 0)
        self.floats(*ramp.positions, *channels)


def main():
    words, rng = Words(), random.Random(2)
    for sort in (waves, written, verdicts, steps):
        sort(words, rng)
    if "--lines" in sys.argv:
        print(*(f"{name} {n} equal {n}" for name, n in words.sorts), sep="\n")
    else:
        print(*(f"{word:08x}" for word in words.words), sep="\n")


main()
