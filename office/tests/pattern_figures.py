#!/usr/bin/python3
"""Counts in how many lists of 2,400 numbers each pattern is found, and how many random lists pass.

    office/tests/pattern_figures.py [LISTS-OF-EACH-KIND] [RANDOM-LISTS] [SEED]

The last line is 'patterns: seed S, N kinds, least M of L found; P of R random lists pass'. One seed gives one result.
"""
import random
import sys
from pathlib import Path

OFFICE = Path(__file__).resolve().parent.parent
sys.path[:0] = [str(OFFICE), str(OFFICE / "tests")]

from generators import KINDS, hashed_list  # noqa: E402

from ballot_office.pure.patterns import PATTERNS, Numbers, patterns_in  # noqa: E402

COUNT = 2_400
TOLD_EACH = 1_000


def first_found(numbers: Numbers) -> str:
    """The name of the first pattern found, or nothing."""
    return next((it.name for it in PATTERNS if it.test(numbers)), "")


def least_found(each: int, seed: str) -> int:
    """Tells of each kind in how many lists a pattern is found, and answers the least of these numbers."""
    least = each
    for kind, make in KINDS.items():
        rng = random.Random(f"{kind} {seed}")
        names = [first_found(make(rng, COUNT)) for _ in range(each)]
        found = sum(name != "" for name in names)
        least = min(least, found)
        print(f"{kind}: {found} of {each}, as {', '.join(sorted(set(names) - {''}))}", flush=True)
    return least


def random_passed(lists: int, seed: str) -> int:
    """How many random lists have no pattern. Tells what is found in the others."""
    passed = 0
    for at in range(lists):
        told = patterns_in(hashed_list(f"{seed} {at}", COUNT))
        passed += not told
        if told:
            print(f"random list {at}: {told[0][0].name}: {told[0][1]}", flush=True)
        if (at + 1) % TOLD_EACH == 0:
            print(f"random: {passed} of {at + 1} pass", flush=True)
    return passed


def main(words: list[str]) -> int:
    """Counts and tells."""
    each = int(words[0]) if words else 100
    lists = int(words[1]) if len(words) > 1 else 10_000
    seed = words[2] if len(words) > 2 else "1"
    least = least_found(each, seed)
    passed = random_passed(lists, seed)
    kinds = f"{len(KINDS)} kinds, least {least} of {each} found"
    print(f"patterns: seed {seed}, {kinds}; {passed} of {lists} random lists pass")
    return 0 if least * 100 >= 99 * each and (lists - passed) * 10_000 <= lists else 1


if __name__ == "__main__":
    sys.exit(main(sys.argv[1:]))
