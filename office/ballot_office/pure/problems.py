"""Problems as values: a place, a rule that does not hold there, and a remedy. `sentence` makes the words of one."""

from collections.abc import Iterable
from dataclasses import dataclass, replace
from typing import NamedTuple

from ballot_office.pure.rules import ERROR, NOTE, RULES, WARNING

__all__ = [
    "ERROR",
    "NOTE",
    "WARNING",
    "Place",
    "Problem",
    "Refused",
    "problem",
    "sentence",
    "shown",
    "is_shown",
    "is_found",
]


@dataclass(frozen=True)
class Place:
    """Where something stands: a file, and in it a line and column of a text, a row and column of a table, or a key."""

    file: str = ""
    line: int = 0
    column: int = 0
    row: int = 0
    heading: str = ""
    key: str = ""

    def at(self, key: str) -> "Place":
        """The same place with another key."""
        return replace(self, key=key)


class Problem(NamedTuple):
    """One problem: the name of its rule, its place, and the facts that the rule's words are filled with."""

    name: str
    place: Place
    facts: tuple[tuple[str, str], ...]

    @property
    def weight(self) -> str:
        """Whether it is an error, a warning or a note."""
        return RULES[self.name].weight


class Refused(Exception):
    """Problems for which a command does not go on, and its status."""

    def __init__(self, problems: Iterable[Problem], status: int):
        super().__init__()
        self.problems, self.status = list(problems), status


def problem(rule_name: str, place: Place, /, **facts: object) -> Problem:
    """A problem of this name."""
    return Problem(rule_name, place, tuple((key, shown(str(value))) for key, value in facts.items()))


def is_shown(letter: str) -> bool:
    """Whether a terminal shows a character: a printable one, or what joins letters and keeps them apart."""
    return letter.isprintable() or letter in "\u200c\u200d"


def shown(text: str, most: int = 240) -> str:
    """The text with what a terminal would obey, or nobody would see, spelled out, and cut where it is long."""
    safe = "".join(c if is_shown(c) else c.encode("unicode_escape").decode("ascii") for c in text)
    return safe if len(safe) <= most else safe[: most - 3] + "..."


def where(place: Place) -> str:
    """The words of a place."""
    parts = [shown(place.file)] if place.file else []
    if place.row:
        parts.append(f"row {place.row}")
    if place.heading:
        parts.append(f"column {shown(place.heading)}")
    if place.line:
        parts.append(f"line {place.line}" + (f", column {place.column}" if place.column else ""))
    if place.key:
        parts.append(shown(place.key))
    return ", ".join(parts)


def sentence(found: Problem) -> str:
    """The words of a problem: its place, the rule, and what to do."""
    rule, facts = RULES[found.name], dict(found.facts)
    front = where(found.place)
    weight = "" if rule.weight == ERROR else f"{rule.weight}: "
    said = rule.rule.format(**facts)
    remedy = rule.remedy.format(**facts)
    return f"{front}: {weight}{said}; {remedy}" if front else f"{weight}{said}; {remedy}"


def is_found(problems: Iterable[Problem]) -> bool:
    """Whether a check found something: an error or a warning."""
    return any(it.weight != NOTE for it in problems)
