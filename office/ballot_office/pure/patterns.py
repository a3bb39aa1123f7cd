"""Patterns that a list of numbers must not have: what a counter, a clock, a short width or a linear generator leaves.

Each test's bound is set so that a random list of any length shows it less often than once in a million: all together
let 9,999 of 10,000 random lists pass. Nothing here shows that a list is random; no test can.
"""

import math
from collections import Counter
from collections.abc import Callable, Sequence
from itertools import pairwise
from typing import NamedTuple

from ballot_office.pure.generators import is_java, is_twister, linear_complexity

WORD = 2**64
SHORT = -24.0  # the binary logarithm of how seldom a random list may be so narrow, or have so many equal gaps
FAR = 7.0  # how many standard deviations are too many
NEAR_HALF = 20  # a random sequence of bits needs a register of nearly half its length, seldom by so many shorter
MOST_READ = 4_000  # numbers in whose order a generator is sought
Numbers = Sequence[int]


class Pattern(NamedTuple):
    """One pattern: its name, what it is for a person, whether only the order shows it, and the test, which answers
    what was found, or nothing."""

    name: str
    words: str
    in_order: bool
    test: Callable[[Numbers], str]


def narrow(numbers: Numbers) -> str:
    """All numbers lie in a small part of the range, which may go over its end."""
    if len(numbers) < 2:
        return ""
    ordered = sorted(numbers)
    widest = max(*(b - a for a, b in pairwise(ordered)), ordered[0] + WORD - ordered[-1])
    part = (WORD - widest) / WORD
    seldom = math.log2(len(numbers)) + (len(numbers) - 1) * math.log2(part or 1 / WORD)
    return f"all lie within {part:.3g} of the range" if seldom < SHORT else ""


def common_step(numbers: Numbers) -> str:
    """All differences are multiples of one number."""
    step = math.gcd(*(it - numbers[0] for it in numbers[1:]))
    return f"all differ by multiples of {step}" if step > 1 and (len(numbers) - 2) * math.log2(step) > 40 else ""


def equal_gaps(numbers: Numbers) -> str:
    """Of the numbers in ascending order several have the same distance to the next one, as those of a counter have."""
    count = len(numbers)
    if count < 3:
        return ""
    ordered = sorted(numbers)
    gaps = [b - a for a, b in pairwise(ordered)] + [ordered[0] + WORD - ordered[-1]]
    repeated = count - len(set(gaps))
    rate = count**3 / (4 * WORD)
    seldom = repeated * math.log2(rate) - math.log2(math.factorial(min(repeated, 150)))
    often = Counter(gaps).most_common(1)[0]
    return f"{often[1]} are followed by the one that is {often[0]} greater" if repeated and seldom < SHORT else ""


def bits_of(numbers: Numbers) -> list[str]:
    """Of each bit, the lowest first, what it is in one number after the other, as binary digits."""
    digits = "".join(f"{it:064b}" for it in numbers)
    return [digits[place::64] for place in range(63, -1, -1)]


def leaning_bits(numbers: Numbers) -> str:
    """A bit is set much more often, or much less often, than not."""
    for bit, digits in enumerate(bits_of(numbers)):
        ones = digits.count("1")
        if abs(2 * ones - len(numbers)) > FAR * math.sqrt(len(numbers)):
            return f"bit {bit} is set in {ones} of {len(numbers)}"
    return ""


def dependent_bits(numbers: Numbers) -> str:
    """Some bits follow from the others: the numbers have fewer bits of their own than 64."""
    if len(numbers) < 100:
        return ""
    basis: dict[int, int] = {}
    for number in numbers[1:]:
        left = number ^ numbers[0]
        while left and left.bit_length() in basis:
            left ^= basis[left.bit_length()]
        if left:
            basis[left.bit_length()] = left
        if len(basis) == 64:
            return ""
    return f"they have {len(basis)} bits of their own in place of 64"


def uneven_bytes(numbers: Numbers) -> str:
    """The values of a byte come too evenly, or too unevenly."""
    count = len(numbers)
    if count < 1280:
        return ""
    for place in range(0, 64, 8):
        often = Counter(it >> place & 255 for it in numbers)
        spread = sum(it * it for it in often.values()) * 256 / count - count
        lean = ((spread / 255) ** (1 / 3) - (1 - 2 / (9 * 255))) / math.sqrt(2 / (9 * 255))
        if abs(lean) > FAR - 0.5:
            return f"byte {place // 8} has its values too {'un' if lean > 0 else ''}evenly"
    return ""


def rising(numbers: Numbers) -> str:
    """The numbers rise, or fall, much more often than every other time."""
    count = len(numbers)
    if count < 20:
        return ""
    rises = sum(a < b for a, b in pairwise(numbers))
    if abs(rises - (count - 1) / 2) > FAR * math.sqrt((count + 1) / 12):
        return f"{rises} of {count - 1} are followed by a greater one"
    return ""


def halves(numbers: Numbers) -> tuple[list[int], list[int]]:
    """The 32-bit halves of the numbers: the upper one first, and the lower one first."""
    upper = [half for it in numbers for half in (it >> 32, it & 0xFFFFFFFF)]
    lower = [half for it in numbers for half in (it & 0xFFFFFFFF, it >> 32)]
    return upper, lower


def congruential(numbers: Numbers) -> str:
    """Each number is the one before it, times a number, plus a number, modulo a number: all three unknown."""
    read = numbers[:MOST_READ]
    for words, name in zip((read, *halves(read)), ("the numbers", "their halves", "their halves, the lower first")):
        steps = [b - a for a, b in pairwise(words)]
        if len(steps) < 8:
            continue
        modulus = math.gcd(*(a * c - b * b for a, b, c in zip(steps, steps[1:], steps[2:])))
        if modulus == 0 or modulus > 2**20:
            return f"{name} follow from each other by a multiplication"
    return ""


def short_register(numbers: Numbers) -> str:
    """A bit of the numbers, in their order, is what a short shift register gives."""
    for bit, digits in enumerate(bits_of(numbers[:MOST_READ])):
        length = linear_complexity(digits)
        if length < len(digits) // 2 - NEAR_HALF:
            return f"bit {bit} is that of a shift register of {length} bits"
    return ""


def known_generator(numbers: Numbers) -> str:
    """The numbers are those of a generator that many programs have, in its order."""
    if is_twister(numbers[:MOST_READ], 64):
        return "they are those of the Mersenne Twister of 64 bits"
    for words in halves(numbers[:MOST_READ]):
        if is_twister(words, 32):
            return "their halves are those of the Mersenne Twister (as in Python, PHP, R and spreadsheets)"
    return "they are those of Java's Random, or drand48" if is_java(numbers) else ""


PATTERNS = (
    Pattern("a short width, or a clock", "all numbers lie in a small part of the range", False, narrow),
    Pattern("a common step", "all differences are multiples of one number", False, common_step),
    Pattern("a counter", "neighbours in ascending order have equal distances", False, equal_gaps),
    Pattern("a leaning bit", "a bit is set far more, or far less, than half the time", False, leaning_bits),
    Pattern("dependent bits", "some bits follow from the others", False, dependent_bits),
    Pattern("uneven bytes", "the values of a byte come too evenly, or too unevenly", False, uneven_bytes),
    Pattern("a rising order", "numbers rise, or fall, far more than every other time", True, rising),
    Pattern("a congruential generator", "each follows from the one before by a multiplication", True, congruential),
    Pattern(
        "a shift register", "a bit is that of a short register, or of sums of earlier numbers", True, short_register
    ),
    Pattern("a known generator", "Mersenne Twister (32, 64 bits), Java's Random, drand48", True, known_generator),
)


def patterns_in(numbers: Numbers) -> list[tuple[Pattern, str]]:
    """The patterns that a list has, with what was found."""
    found = []
    for pattern in PATTERNS:
        detail = pattern.test(numbers) if numbers else ""
        if detail:
            found.append((pattern, detail))
    return found
