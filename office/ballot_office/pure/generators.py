"""Generators that many programs have, and how their numbers are known again."""

from collections.abc import Callable, Iterator, Sequence


def linear_complexity(bits: str) -> int:
    """The length of the shortest shift register that gives these binary digits, the first one first.

    Euclid's algorithm on polynomials over two elements: the digits over a power of x become a continued fraction, and
    the register is its first convergent that agrees with all digits.
    """
    count = len(bits)
    before, now = 1 << count, int(bits or "0", 2)
    while now and before.bit_length() + now.bit_length() - 2 >= count:
        degree, left = now.bit_length(), before
        while left.bit_length() >= degree:
            left ^= now << left.bit_length() - degree
        before, now = now, left
    return count + 1 - before.bit_length()


def undo_right(word: int, shift: int, mask: int, width: int) -> int:
    """The word that became this one when it was shifted right, masked and added to itself bit by bit."""
    found = word
    for _ in range(width // shift + 1):
        found = word ^ (found >> shift & mask)
    return found


def undo_left(word: int, shift: int, mask: int, width: int) -> int:
    """The same for a shift to the left."""
    found, all_bits = word, 2**width - 1
    for _ in range(width // shift + 1):
        found = word ^ (found << shift & mask & all_bits)
    return found


def untempered_32(word: int) -> int:
    """The state behind an output of the Mersenne Twister of 32 bits."""
    word = undo_right(word, 18, 2**32 - 1, 32)
    word = undo_left(word, 15, 0xEFC60000, 32)
    word = undo_left(word, 7, 0x9D2C5680, 32)
    return undo_right(word, 11, 2**32 - 1, 32)


def untempered_64(word: int) -> int:
    """The state behind an output of the Mersenne Twister of 64 bits."""
    word = undo_right(word, 43, 2**64 - 1, 64)
    word = undo_left(word, 37, 0xFFF7EEE000000000, 64)
    word = undo_left(word, 17, 0x71D67FFFEDA60000, 64)
    return undo_right(word, 29, 0x5555555555555555, 64)


# Of the Mersenne Twister by width: how long its state is, which word is added, the matrix, how many bits are taken of
# the next word, and how an output leads back to its state.
TWISTERS: dict[int, tuple[int, int, int, int, Callable[[int], int]]] = {
    32: (624, 397, 0x9908B0DF, 31, untempered_32),
    64: (312, 156, 0xB5026F5AA96619E9, 31, untempered_64),
}


def is_twister(words: Sequence[int], width: int) -> bool:
    """Whether outputs of the Mersenne Twister stand in these words, in its order."""
    size, middle, matrix, low, undo = TWISTERS[width]
    tried = min(32, len(words) - size)
    fitting = 0
    for at in range(tried):
        first, second, third, last = (undo(words[at + it]) for it in (0, 1, middle, size))
        mixed = first >> low << low | second & ((1 << low) - 1)
        fitting += last == third ^ mixed >> 1 ^ (matrix if mixed & 1 else 0)
    return fitting >= 3


JAVA_TIMES, JAVA_PLUS, JAVA_MASK = 0x5DEECE66D, 0xB, 2**48 - 1


def is_java(numbers: Sequence[int]) -> bool:
    """Whether the first numbers are two outputs each of the 48-bit generator of Java's Random and of drand48."""
    if len(numbers) < 3:
        return False

    def pairs(number: int) -> tuple[tuple[int, int], ...]:
        """The outputs that may stand in a number: added with a sign, or set beside each other."""
        upper, lower = number >> 32, number & 0xFFFFFFFF
        return ((upper + (lower >> 31)) & 0xFFFFFFFF, lower), (upper, lower), (lower, upper)

    states = (state for pair in dict.fromkeys(pairs(numbers[0])) for state in _states_behind(*pair))
    return any(_follows(state, pairs(numbers[1])) for state in states)


def _states_behind(first: int, second: int) -> Iterator[int]:
    """The states of that generator behind two outputs: of the state of the first one its 16 lowest bits are unknown.

    They add a multiple of the multiplier, which wraps at most six times; in each turn at most one fits the second one.
    """
    base = ((first << 16) * JAVA_TIMES + JAVA_PLUS) & JAVA_MASK
    for turn in range(7):
        low = -((base - (turn << 48 | second << 16)) // JAVA_TIMES)
        state = base + low * JAVA_TIMES & JAVA_MASK
        if 0 <= low < 2**16 and state >> 16 == second:
            yield state


def _follows(state: int, outputs: Sequence[tuple[int, int]]) -> bool:
    """Whether the next two outputs behind a state are one of these pairs."""
    third = (state * JAVA_TIMES + JAVA_PLUS) & JAVA_MASK
    fourth = (third * JAVA_TIMES + JAVA_PLUS) & JAVA_MASK
    return (third >> 16, fourth >> 16) in outputs
