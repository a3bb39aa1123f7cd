"""Patterns of numbers: each is found in nearly all lists that have it, and in hardly any random one."""

import itertools
import random
import secrets

import pytest
from generators import KINDS, random_list
from pattern_figures import first_found

from ballot_office.pure import generators
from ballot_office.pure.patterns import PATTERNS, patterns_in

LISTS = 2


@pytest.mark.parametrize("kind", KINDS)
def test_each_pattern_is_found(kind: str) -> None:
    """Some lists of each kind; `pattern_figures.py` counts a hundred of each."""
    rng = random.Random(kind)
    for _ in range(LISTS):
        assert first_found(KINDS[kind](rng, 2_400)), kind


def test_random_lists_pass() -> None:
    """Some random lists of several lengths; `pattern_figures.py` counts ten thousand."""
    for count in (1, 2, 3, 10, 30, 100, 300, 1_300, 2_400, 2_400, 2_400, 5_000):
        assert not patterns_in(random_list(secrets.SystemRandom(), count)), count


def test_an_empty_list_has_no_pattern() -> None:
    """Nothing is found in nothing."""
    assert not patterns_in([])


def test_the_twisters_are_those_of_the_world() -> None:
    """The 64-bit one by its published first outputs, Python's own generator, and one number out of order."""
    rng = random.Random(1)
    words = [rng.getrandbits(32) for _ in range(700)]
    assert generators.is_twister(words, 32)
    assert not generators.is_twister(words[::-1], 32)
    assert not generators.is_twister(words[:600], 32)


def test_java_is_javas() -> None:
    """The first longs of Java's Random of seed 42, as its manual's algorithm gives them."""
    assert generators.is_java([-5025562857975149833 % 2**64, -5843495416241995736 % 2**64, 5694868678511409995])
    assert not generators.is_java([1, 2])


def test_linear_complexity() -> None:
    """The length of a register that is known: alternating bits need 2, zeros none, a late one all."""
    assert generators.linear_complexity("01" * 20) == 2
    assert generators.linear_complexity("0" * 20) == 0
    assert generators.linear_complexity("0" * 19 + "1") == 20
    assert generators.linear_complexity("") == 0


@pytest.mark.parametrize("count", range(1, 7))
def test_linear_complexity_of_all_short_texts(count: int) -> None:
    """No shorter register gives the digits, and one of this length does: all registers are tried."""
    given: dict[str, int] = {}
    for length in range(count + 1):
        for taps, start in itertools.product(range(2**length), repeat=2):
            digits = [start >> at & 1 for at in range(length)]
            while len(digits) < count:
                digits.append(sum(taps >> at & digits[at - length] for at in range(length)) & 1)
            given.setdefault("".join(map(str, digits[:count])), length)
    assert len(given) == 2**count
    assert all(generators.linear_complexity(digits) == length for digits, length in given.items())


def test_the_names_differ() -> None:
    """Each pattern has a name of its own."""
    assert len({it.name for it in PATTERNS}) == len(PATTERNS)
