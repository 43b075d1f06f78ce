#!/usr/bin/env python3
"""Compares the table of the crate `sine`, in its source and in its definitions, entry by entry with one worked out here.

Entry i is (1 - cos(pi i / 1024)) / 2 in units of 2^-24, rounded: worked out with 60 digits, pi by Machin's formula and the
cosine by its series. It ends with status 1 where an entry differs, or lies too near half-way to be rounded."""
import re
import sys
from decimal import Decimal, getcontext
from pathlib import Path

CRATE = Path(__file__).resolve().parents[2] / "crates/sine"
STEPS, UNITS, DIGITS = 1024, 1 << 24, 60
SMALL = Decimal(10) ** -(DIGITS - 2)
getcontext().prec = DIGITS


def arctangent_of_inverse(x):
    total = term = Decimal(1) / x
    n = 1
    while abs(term) > SMALL:
        term /= -x * x
        n += 2
        total += term / n
    return total


def cosine(x):
    total = term = Decimal(1)
    n = 0
    while abs(term) > SMALL:
        n += 2
        term *= -x * x / (n * (n - 1))
        total += term
    return total


def worked_out():
    """The entries, and how near the nearest of them lies to half-way between two whole numbers."""
    pi = 4 * (4 * arctangent_of_inverse(Decimal(5)) - arctangent_of_inverse(Decimal(239)))
    exact = [(1 - cosine(pi * i / STEPS)) / 2 * UNITS for i in range(STEPS + 1)]
    return [round(x) for x in exact], min(abs(x % 1 - Decimal("0.5")) for x in exact)


def numbers(file, start, end):
    """The whole numbers between two words of a file."""
    text = (CRATE / file).read_text()
    part = text[text.index(start) + len(start):]
    return [int(word) for word in re.findall(r"\d+", part[:part.index(end)])]


def main():
    table, nearest = worked_out()
    wrong = nearest < Decimal("1e-6")
    for file, start, end in (("src/table.rt", "[u32; 1025] = [", "];"), ("specs/Table.antt", "table =", "[]\n")):
        stored = numbers(file, start, end)
        differences = [i for i, (a, b) in enumerate(zip(stored, table)) if a != b]
        wrong = wrong or differences or len(stored) != len(table)
        print(f"{file}: {len(stored)} entries, {len(differences)} differences {differences[:10]}")
    print(f"nearest to half-way: {nearest:.6f} of a unit")
    sys.exit(1 if wrong else 0)


if __name__ == "__main__":
    main()
