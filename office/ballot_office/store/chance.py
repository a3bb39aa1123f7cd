"""What is drawn by the system's generator."""

import secrets


def draw_salt() -> str:
    """A salt: 64 bits as 16 hexadecimal digits."""
    return secrets.token_hex(8)


def draw_numbers(count: int) -> list[int]:
    """So many different numbers from 1 to 2^64 - 1, in the order in which they came first."""
    drawn: dict[int, None] = {}
    while len(drawn) < count:
        number = secrets.randbits(64)
        if number:
            drawn[number] = None
    return list(drawn)


def shuffled(numbers: list[int]) -> list[int]:
    """The numbers in a new order."""
    mixed = list(numbers)
    secrets.SystemRandom().shuffle(mixed)
    return mixed
