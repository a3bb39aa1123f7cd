"""A book: what the program does not know of an election. It is the one source from which the election is made."""

from collections.abc import Iterator
from dataclasses import dataclass, field
from datetime import date
from typing import Any

from ballot_office.pure.election import Election, version_of

CANDIDATES, MEASURE = "candidates", "measure"
KINDS = (CANDIDATES, MEASURE)
VOTES, BALLOTS = "votes", "ballots"


@dataclass(frozen=True)
class Choice:
    """One line of a contest on the sheet."""

    id: str
    name: str
    party: str = ""
    write_in: bool = False


@dataclass(frozen=True)
class Contest:
    """One contest. Of a measure the first choice is the one that needs its threshold."""

    id: str
    title: str
    kind: str
    allowed: int
    seats: int
    threshold: str
    threshold_of: str
    choices: tuple[Choice, ...]


@dataclass(frozen=True)
class Style:
    """Which contests are on a sheet."""

    id: str
    name: str
    contests: tuple[str, ...]


@dataclass(frozen=True)
class Precinct:
    """One precinct, and how many voters are expected of each style."""

    id: str
    name: str
    expected: dict[str, int] = field(default_factory=dict)


@dataclass(frozen=True)
class Book:
    """One election as people know it."""

    title: str
    jurisdiction: str
    date: date
    languages: tuple[str, ...]
    precincts: tuple[Precinct, ...]
    contests: tuple[Contest, ...]
    styles: tuple[Style, ...]

    def contest_numbers(self) -> dict[str, int]:
        """The number of each contest in the program's election, by its id."""
        return {contest.id: number for number, contest in enumerate(self.contests, 1)}

    def numbers_on(self, style: Style) -> tuple[int, ...]:
        """The numbers of the contests of a style, ascending."""
        numbers = self.contest_numbers()
        return tuple(sorted(numbers[name] for name in style.contests))

    def expected(self) -> Iterator[tuple[Precinct, Style, int]]:
        """How many voters of each style each precinct expects, where the book tells it."""
        for precinct in self.precincts:
            for style in self.styles:
                if style.id in precinct.expected:
                    yield precinct, style, precinct.expected[style.id]


def election_of(book: Book, limit: int, bits: int, salt: str) -> Election:
    """The program's election of a book."""
    version = version_of(len(book.contests), max(len(it.choices) for it in book.contests))
    contests = tuple((len(it.choices), it.allowed) for it in book.contests)
    return Election(version, contests, tuple(map(book.numbers_on, book.styles)), limit, bits, salt)


def table_of(book: Book) -> dict[str, Any]:
    """The book as a TOML table. What is empty is left out."""

    def full(table: dict[str, Any]) -> dict[str, Any]:
        return {key: value for key, value in table.items() if value not in ("", 0, {}, [], False)}

    def contest(one: Contest) -> dict[str, Any]:
        choices = [full({"id": c.id, "name": c.name, "party": c.party, "write_in": c.write_in}) for c in one.choices]
        front = {"id": one.id, "title": one.title, "kind": one.kind, "allowed": one.allowed, "seats": one.seats}
        return full(front | {"threshold": one.threshold, "threshold_of": one.threshold_of, "choices": choices})

    return full(
        {
            "title": book.title,
            "jurisdiction": book.jurisdiction,
            "date": book.date,
            "languages": list(book.languages),
            "contests": [contest(it) for it in book.contests],
            "styles": [{"id": it.id, "name": it.name, "contests": list(it.contests)} for it in book.styles],
            "precincts": [full({"id": it.id, "name": it.name, "expected": it.expected}) for it in book.precincts],
        }
    )
