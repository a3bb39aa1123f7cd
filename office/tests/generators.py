"""Lists of numbers as bad tools make them, for the tests of patterns."""

import hashlib
import random
import struct
from collections.abc import Callable, Iterator

WORD = 2**64
Make = Callable[[random.Random, int], list[int]]


def random_list(rng: random.Random, count: int) -> list[int]:
    """Different numbers of the whole range."""
    return [rng.randrange(1, WORD) for _ in range(count)]


def hashed_list(seed: str, count: int) -> list[int]:
    """A list that follows from its seed, by a hash function that shows no pattern: SHAKE256."""
    data = hashlib.shake_256(seed.encode()).digest(8 * count)
    return [it or 1 for it in struct.unpack(f">{count}Q", data)]


def counter(rng: random.Random, count: int) -> list[int]:
    """A counter of any step, which may go over the end of the range."""
    start, step = rng.randrange(WORD), rng.choice([1, 2, 10, 1000, rng.randrange(1, 2**32), rng.randrange(1, WORD)])
    return [(start + at * step) % WORD or 1 for at in range(count)]


def clock(rng: random.Random, count: int) -> list[int]:
    """The time of each sheet in seconds, milliseconds, microseconds or nanoseconds, or as digits."""
    unit = rng.choice([1, 10**3, 10**6, 10**9, 10**7])
    time, times = rng.randrange(1_600_000_000, 1_900_000_000) * unit, []
    for _ in range(count):
        time += max(1, int(rng.expovariate(1 / 20) * unit))
        times.append(time)
    return times


def packed_clock(rng: random.Random, count: int) -> list[int]:
    """Milliseconds above, a machine and a random part below."""
    return [
        (time << 22 | rng.randrange(2**22)) % WORD for time in sorted(rng.randrange(10**8) for _ in range(count))
    ]


def clock_below(rng: random.Random, count: int) -> list[int]:
    """A random upper half, and seconds of one day in the lower half."""
    start = rng.randrange(2**31)
    return [rng.randrange(2**32) << 32 | start + rng.randrange(86_400) for _ in range(count)]


def short(rng: random.Random, count: int) -> list[int]:
    """A width of fewer bits, at any place, with other bits that do not change."""
    width = rng.randrange(16, 64)
    place, rest = rng.randrange(65 - width), rng.randrange(WORD)
    field = (1 << width) - 1 << place
    return [(rng.randrange(1 << width) << place) | rest & ~field for _ in range(count)]


def digits(rng: random.Random, count: int) -> list[int]:
    """Numbers of so many decimal digits."""
    length = rng.randrange(6, 20)
    return [rng.randrange(10 ** (length - 1), 10**length) for _ in range(count)]


def doubled(rng: random.Random, count: int) -> list[int]:
    """32 random bits twice."""
    return [it << 32 | it ^ 0x5A5A5A5A for it in (rng.randrange(2**32) for _ in range(count))]


def fraction(rng: random.Random, count: int) -> list[int]:
    """A fraction of 53 bits times the range."""
    return [int(rng.random() * WORD) or 1 for _ in range(count)]


def glued(words: Iterator[int], rng: random.Random, count: int) -> list[int]:
    """Two words of 32 bits in each number, in either order."""
    first = rng.choice([32, 0])
    return [next(words) << first | next(words) << 32 - first for _ in range(count)]


def lcg(rng: random.Random, modulus: int) -> Iterator[int]:
    """A congruential generator of any constants."""
    times, plus, state = rng.randrange(1, modulus) | 1, rng.randrange(modulus) | 1, rng.randrange(modulus)
    while True:
        state = (state * times + plus) % modulus
        yield state


def lcg_64(rng: random.Random, count: int) -> list[int]:
    """One modulo 2^64, modulo a prime near it, or modulo any number near it."""
    words = lcg(rng, rng.choice([WORD, WORD - 59, 2**63 - 25, WORD - rng.randrange(1, 10**6)]))
    return [next(words) or 1 for _ in range(count)]


def lcg_32(rng: random.Random, count: int) -> list[int]:
    """One modulo 2^32, or the Lehmer generator modulo 2^31 - 1, two words in each number."""
    return glued(lcg(rng, rng.choice([2**32, 2**31 - 1])), rng, count)


def java(rng: random.Random, count: int) -> list[int]:
    """Java's nextLong, or drand48's words beside each other."""
    state, signed = rng.randrange(2**48), rng.random() < 0.5
    numbers = []
    for _ in range(count):
        state = (state * 0x5DEECE66D + 0xB) % 2**48
        upper = state >> 16
        state = (state * 0x5DEECE66D + 0xB) % 2**48
        lower = state >> 16
        numbers.append(((upper << 32) + (lower - (lower >> 31 << 32) if signed else lower)) % WORD or 1)
    return numbers


def xorshift(rng: random.Random, count: int) -> list[int]:
    """Xorshift of 64 bits, plain or multiplied at the end."""
    state, times = rng.randrange(1, WORD), rng.choice([1, 2685821657736338717])
    numbers = []
    for _ in range(count):
        state ^= state << 13 & WORD - 1
        state ^= state >> 7
        state ^= state << 17 & WORD - 1
        numbers.append(state * times % WORD)
    return numbers


def xorshift_plus(rng: random.Random, count: int) -> list[int]:
    """Xorshift of 128 bits with an addition, as browsers had it."""
    one, two = rng.randrange(1, WORD), rng.randrange(1, WORD)
    numbers = []
    for _ in range(count):
        numbers.append((one + two) % WORD or 1)
        left, right = one, two
        left ^= left << 23 & WORD - 1
        one, two = right, left ^ right ^ left >> 17 ^ right >> 26
    return numbers


def shift_register(rng: random.Random, count: int) -> list[int]:
    """A register of 64 to 500 bits, 64 steps a number."""
    length = rng.randrange(64, 500)
    taps, state = rng.getrandbits(length) | 1 << length - 1, rng.getrandbits(length) | 1
    numbers = []
    for _ in range(count):
        number = 0
        for _ in range(64):
            bit = (state & taps).bit_count() & 1
            state = (state << 1 | bit) & (1 << length) - 1
            number = number << 1 | bit
        numbers.append(number or 1)
    return numbers


def lagged(rng: random.Random, count: int) -> list[int]:
    """Sums of earlier numbers, as Go's and the C library's have them."""
    long, near = rng.choice([(607, 273), (55, 24), (31, 3), (17, 5), (250, 103)])
    numbers = [rng.getrandbits(64) | 1 << rng.randrange(2) for _ in range(long)]
    while len(numbers) < count + long:
        numbers.append((numbers[-long] + numbers[-near]) % WORD or 1)
    return numbers[long:]


def twister(rng: random.Random, count: int) -> list[int]:
    """The Mersenne Twister of Python: two words in each number, in either order."""
    inner = random.Random(rng.getrandbits(64))
    return glued(iter(lambda: inner.getrandbits(32), -1), rng, count)


def twister_64(rng: random.Random, count: int) -> list[int]:
    """The Mersenne Twister of 64 bits."""
    state = [rng.getrandbits(64) for _ in range(312)]
    numbers = []
    for at in range(count):
        mixed = state[at] & ~0x7FFFFFFF | state[at + 1] & 0x7FFFFFFF
        state.append(state[at + 156] ^ mixed >> 1 ^ (0xB5026F5AA96619E9 if mixed & 1 else 0))
        word = state[at + 312]
        word ^= word >> 29 & 0x5555555555555555
        word ^= word << 17 & 0x71D67FFFEDA60000
        word ^= word << 37 & 0xFFF7EEE000000000
        numbers.append(word ^ word >> 43)
    return numbers


def shuffled(make: Make) -> Make:
    """The same numbers in another order."""

    def mixed(rng: random.Random, count: int) -> list[int]:
        numbers = make(rng, count)
        rng.shuffle(numbers)
        return numbers

    return mixed


ANYHOW: dict[str, Make] = {
    "counter": counter,
    "clock": clock,
    "packed clock": packed_clock,
    "clock below": clock_below,
    "short width": short,
    "decimal digits": digits,
    "doubled bits": doubled,
    "fraction": fraction,
}
IN_ORDER: dict[str, Make] = {
    "congruential, 64 bits": lcg_64,
    "congruential, 32 bits": lcg_32,
    "Java": java,
    "xorshift": xorshift,
    "xorshift with addition": xorshift_plus,
    "shift register": shift_register,
    "lagged sums": lagged,
    "Mersenne Twister": twister,
    "Mersenne Twister, 64 bits": twister_64,
}
KINDS: dict[str, Make] = {
    **ANYHOW,
    **{f"{name}, shuffled": shuffled(make) for name, make in ANYHOW.items()},
    **IN_ORDER,
}
