#!/usr/bin/env python3
"""check_sample.py DICE K <EXPORT

A second opinion on a sample, written from docs/FORMATS.md alone. It reads what a session replied to `export`, draws the
K ballots whose tickets are the least, and writes what `sample DICE K` writes of the same medium.
"""

import hashlib
import sys


def exported(text):
    """The record lines of the last export in a text of replies."""
    lines = text.splitlines()
    first = max(at for at, line in enumerate(lines) if line.startswith("export "))
    count = int(lines[first].removeprefix("export "))
    return lines[first + 1 : first + 1 + count]


def number_of(line):
    return int(line.split(" ")[0])


def ticket(dice, number):
    return hashlib.sha256(dice.encode() + number.to_bytes(8, "big")).digest()


def sample(dice, count, lines):
    drawn = sorted(lines, key=lambda line: (ticket(dice, number_of(line)), number_of(line)))[:count]
    return [f"sample {len(drawn)}", *sorted(drawn, key=number_of)]


if __name__ == "__main__":
    print("\n".join(sample(sys.argv[1], int(sys.argv[2]), exported(sys.stdin.read()))))
