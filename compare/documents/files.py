#!/usr/bin/env python3
"""Works out what the program `files` prints, and compares it line by line with crates/files/stdout.

A reading of the rules for GIMP files of its own, document 01's and those for what GIMP saves; it knows nothing of the Rattle
code. The texts are those of crates/files/stdin, then the ones that the program makes itself. It ends with status 1 where a line
differs."""
import math
import sys
from collections import Counter
from pathlib import Path

sys.dont_write_bytecode = True

from document import Refusal
from files_made import SEGMENT, many, saved_texts
from files_read import BACKGROUND, FOREGROUND, MARK, MOST_BYTES, name, read

STORED = Path(__file__).resolve().parents[2] / "crates/files"
INFINITE = (math.inf, math.inf, math.inf, 1.0)
FILE = b"GIMP Gradient\nName: n\n1\n0 .5 1 0 0 0 1 1 1 1 1 0 0 0 1\n"
STANDS_FOR = {"|": b"\n", "^": b"\r", "_": b"\t", "~": b"\x0b", "!": b"\xc8", "@": MARK}


def lent(text, lengths, foreground=FOREGROUND, background=BACKGROUND, saved=False):
    """The answer, and what the three outputs then hold, all nines before."""
    room = min(length // size for length, size in zip(lengths, (3, 8, 2)))
    try:
        segments, _ = read(text, room, foreground, background, saved)
    except Refusal as refusal:
        number, line = refusal.args
        return f"refused {number} line {line}", [[0] * length for length in lengths]
    written = [[x for segment in segments for x in segment[part]] for part in range(3)]
    return f"read {len(segments)}", [part + [9] * (length - len(part)) for part, length in zip(written, lengths)]


def answer(label, text, lengths, *colours, saved=False):
    told, outputs = lent(text, lengths, *colours, saved=saved)
    return f"{label}: {told}, zeros " + " ".join(str(output.count(0)) for output in outputs)


def shown(label, text, *colours, saved=False):
    return answer(label, text, (6, 16, 4), *colours, saved=saved) + f", name [{name(text, saved)}]"


def values(label, segment):
    told, (_, channels, codes) = lent(b"GIMP Gradient\nName:\n1\n" + segment, (3, 8, 2))
    counts = " ".join(str(channels.count(x)) for x in (0.25, 0.75, 0))
    return f"{label}: {told}, channels {counts}, codes {codes[0]} {codes[1]}"


def tally(label, texts, saved=False):
    answers, lines = Counter(), 0
    for text in texts:
        try:
            read(text, 2, saved=saved)
            answers[0] += 1
        except Refusal as refusal:
            answers[refusal.args[0]] += 1
            lines += refusal.args[1]
    refused = "".join(f", refused {n} {answers[n]}" for n in sorted(answers) if n)
    return f"{label}: read {answers[0]}{refused}, lines add up to {lines}"


def rows(saved=False):
    for row in (STORED / "stdin").read_text().splitlines():
        label, _, coded = row.partition("\t")
        yield shown(label, b"".join(STANDS_FOR.get(letter, letter.encode("ascii")) for letter in coded), saved=saved)


def damaged(saved=False):
    yield tally("every prefix", (FILE[:n] for n in range(len(FILE) + 1)), saved)
    others = b"\x00\t\n\r +-.05e\xc8"
    changed = (FILE[:i] + bytes([other]) + FILE[i + 1:] for i in range(len(FILE)) for other in others)
    yield tally("every byte changed to a dozen others", changed, saved)


def printed():
    yield from rows()
    yield shown("2 before 10: foreground", b"\xc8", INFINITE, BACKGROUND)
    yield shown("2 before 10: background", b"\xc8", FOREGROUND, INFINITE)
    yield shown("2, the name with finite colours", b"GIMP Gradient\nName: n\n1\n" + SEGMENT, INFINITE, INFINITE)
    yield values("own colours", b"0 .5 1 .1 .2 .3 .4 .5 .6 .7 .8 3 0 0 0")
    yield values("foreground", b"0 .5 1 .1 .2 .3 .4 .5 .6 .7 .8 4 0 1 2")
    yield values("background", b"-0 .5 +1. .1 .2 .3 .4 .5 .6 .7 .8 5 0 3 4")
    yield answer("256 segments, room 256", many(b"256", 256), (768, 2048, 512))
    yield answer("257 segments, room 257", many(b"257", 257), (771, 2056, 514))
    for count in (b"1", b"2"):
        yield answer(f"room 2 but for one channel, count {count.decode()}", many(count, 2), (6, 15, 4))
    for length in (MOST_BYTES, MOST_BYTES + 1):
        yield shown(f"{length:,} bytes", many(b"1", 1).ljust(length, b"\0"))
    yield from damaged()
    yield from rows(saved=True)
    for label, text in saved_texts():
        yield shown(label, text, saved=True)
    yield from damaged(saved=True)


def main():
    stored, here = (STORED / "stdout").read_text("utf-8").split("\n")[:-1], list(printed())
    differences = [(a, b) for a, b in zip(stored, here) if a != b]
    for a, b in differences:
        print(f"stored: {a}\nhere:   {b}")
    print(f"{len(here)} lines, {len(stored)} stored, {len(differences)} differences")
    sys.exit(1 if differences or len(stored) != len(here) else 0)


if __name__ == "__main__":
    main()
