"""Lists of ballot numbers, and labels that a typist can check."""

import re
from collections.abc import Sequence

from ballot_office.pure.names import CHECK_FOUND
from ballot_office.pure.problems import Place, Problem, Refused, problem

MOST_NUMBER = 2**64 - 1
MOST_COUNT = 1_000_000
NUMBER = re.compile(r"[1-9][0-9]{0,19}")
TYPED = re.compile(r"([0-9]{1,20})-([0-9]{2})")


def is_number(text: str) -> bool:
    """Whether a text is the number of a ballot."""
    return NUMBER.fullmatch(text) is not None and int(text) <= MOST_NUMBER


def check_digits(number: int) -> str:
    """Two check digits, by which number and digits leave 1 when divided by 97 (ISO 7064, MOD 97-10).

    One wrong digit, two exchanged, and nearly all other slips change what is left.
    """
    return f"{98 - number * 100 % 97:02d}"


def label(number: int) -> str:
    """The text of a label: the number in groups of four digits, and its check digits."""
    digits = str(number)
    first = len(digits) % 4
    groups = [digits[:first]] if first else []
    groups += re.findall("[0-9]{4}", digits[first:])
    return f"{' '.join(groups)}-{check_digits(number)}"


def typed(text: str) -> int:
    """The number that was typed off a label, with or without the spaces. Raises `Refused`."""
    found = TYPED.fullmatch("".join(text.split()))
    if not found or not is_number(found[1]):
        raise Refused([problem("bad-number", Place(), found=text)], CHECK_FOUND)
    if check_digits(int(found[1])) != found[2]:
        raise Refused([problem("bad-check-digits", Place(), found=text)], CHECK_FOUND)
    return int(found[1])


def read_list(data: bytes, file: str) -> tuple[list[int], list[Problem]]:
    """The numbers of a list, one a line, and what is wrong with lines of it."""
    lines = [it.removesuffix("\r") for it in data.decode("utf-8-sig", errors="replace").split("\n")]
    if lines[-1] == "":
        lines.pop()
    numbers: list[int] = []
    problems: list[Problem] = []
    firsts: dict[int, int] = {}
    for at, line in enumerate(lines, 1):
        if not is_number(line):
            problems.append(problem("list-line", Place(file, line=at), found=line[:40] or "an empty line"))
            continue
        number = int(line)
        if number in firsts:
            problems.append(problem("list-twice", Place(file, line=at), first=firsts[number]))
        firsts.setdefault(number, at)
        numbers.append(number)
    if not numbers:
        problems = [problem("list-empty", Place(file)), *problems[:1]]
    return numbers, problems


def list_text(numbers: Sequence[int]) -> str:
    """The file of a list."""
    return "".join(f"{number}\n" for number in numbers)
