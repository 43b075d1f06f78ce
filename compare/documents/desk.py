#!/usr/bin/env python3
"""Reads the tool's input as document 01 says, beside the tool itself: random texts, every byte of the answers compared.

    compare/documents/desk.py [N]                    N texts (100,000) through the tool, as ./flatten starts it
    compare/documents/desk.py --case SEED            one of them alone
    compare/documents/desk.py --answer FILE          what this reading prints for a file
    compare/documents/desk.py --store                writes what the program `grammar` runs in the gate, and the answers

Written from document 01, and docs/DECISIONS.md where that leaves a choice; it knows nothing of the Rattle code. Texts
are sound, damaged (a line or a byte lost, doubled, moved, changed), with and without an edit; the status is 1 where an
answer differs."""
import argparse
import subprocess
import sys
from collections import Counter
from functools import cache
from pathlib import Path

sys.dont_write_bytecode = True

from desk_random import text
from desk_read import answer
from desk_stored import store

READY = Path(__file__).resolve().parents[2] / "tool/ready"


@cache
def tool():
    """The words that start the tool on this machine."""
    return subprocess.run([str(READY)], stdout=subprocess.PIPE, check=True, text=True).stdout.split("\n")[:-1]


def printed(data):
    return subprocess.run(tool(), input=data, stdout=subprocess.PIPE, check=True).stdout


def compare(seeds):
    classes, differences = Counter(), 0
    for seed in seeds:
        data = text(seed)
        here, there = answer(data), printed(data)
        classes[here.split(b"\t")[0].decode() + (" " + here.split(b"\t")[1].strip().decode() if here.startswith(b"refused") else "")] += 1
        if here != there:
            differences += 1
            if differences <= 10:
                print(f"--case {seed}\ninput:    {data[:600]!r}\nexpected: {here[:300]!r}\nprinted:  {there[:300]!r}")
    for name, count in sorted(classes.items()):
        print(f"{name:12} {count:8}")
    print(f"{len(seeds)} texts, {differences} differences")
    return differences


def main():
    parser = argparse.ArgumentParser(description="The tool beside document 01.")
    parser.add_argument("texts", nargs="?", type=int, default=100000)
    parser.add_argument("--case", type=int)
    parser.add_argument("--answer", metavar="FILE")
    parser.add_argument("--store", action="store_true")
    options = parser.parse_args()
    if options.store:
        store()
        return
    if options.answer:
        sys.stdout.buffer.write(answer(Path(options.answer).read_bytes()))
        return
    sys.exit(1 if compare(range(options.texts) if options.case is None else [options.case]) else 0)


if __name__ == "__main__":
    main()
