"""Elections: the file that the program reads, what is wrong with one, and the sizes of its medium."""

import json
import re
from collections.abc import Callable
from dataclasses import dataclass

from ballot_office.pure.json_text import NoJson, Number, Value, line_and_column, read_json
from ballot_office.pure.problems import Place, Problem, problem

MOST_BYTES = 1_048_576
MOST_CONTESTS = {1: 16, 2: 24}
MOST_CHOICES = {1: 32, 2: 64}
MOST_STYLES = 255
MOST_BALLOTS = 32_768
MOST_BITS = 16
KEYS = ("contests", "styles", "limit", "bits", "salt")
CONTEST_KEYS = ("choices", "allowed")
SALT = re.compile(r"[0-9a-f]{16}")


@dataclass(frozen=True)
class Election:
    """What the program knows of an election: for each contest its choices and allowed marks, and the rest."""

    version: int
    contests: tuple[tuple[int, int], ...]
    styles: tuple[tuple[int, ...], ...]
    limit: int
    bits: int
    salt: str


def limit_of(expected: int) -> int:
    """How many ballots a medium should hold where so many are expected: a fifth more."""
    return expected + -(-expected // 5)


def bits_of(limit: int) -> int:
    """The least number for which 2 to its power is at least one and a half times the limit."""
    return min(MOST_BITS, (-(-3 * limit // 2) - 1).bit_length())


def medium_size(election: Election) -> int:
    """How many bytes the election's medium has: two banks and two gates."""
    cell = 9 + (4 if election.version == 1 else 8) * len(election.contests)
    return 2 * (32 + ((1 << election.bits) + election.limit) * cell) + 2


def version_of(contests: int, choices: int) -> int:
    """The version that so many contests, of at most so many choices each, need."""
    return 1 if contests <= MOST_CONTESTS[1] and choices <= MOST_CHOICES[1] else 2


def election_text(election: Election) -> str:
    """The file of an election, a contest and a style a line."""
    contests = ",\n".join(
        f'    {{"choices": {choices}, "allowed": {allowed}}}' for choices, allowed in election.contests
    )
    styles = ",\n".join(f"    {json.dumps(style)}" for style in election.styles)
    version = '  "version": 2,\n' if election.version == 2 else ""
    return (
        f'{{\n{version}  "contests": [\n{contests}\n  ],\n  "styles": [\n{styles}\n  ],\n'
        f'  "limit": {election.limit},\n  "bits": {election.bits},\n  "salt": "{election.salt}"\n}}\n'
    )


def read_election(data: bytes, file: str) -> tuple[Election | None, list[Problem]]:
    """The election of a file, or everything for which the program refuses it."""
    if len(data) > MOST_BYTES:
        return None, [problem("election-too-long", Place(file), most=f"{MOST_BYTES:,}")]
    try:
        text = data.decode("utf-8")
    except UnicodeDecodeError as error:
        line = data.count(b"\n", 0, error.start) + 1
        return None, [problem("election-not-utf8", Place(file, line=line), byte=f"{data[error.start]:02x}")]
    if text.startswith("\ufeff"):
        return None, [problem("election-has-mark", Place(file, line=1, column=1))]
    try:
        value = read_json(text)
    except NoJson as error:
        line, column = line_and_column(text, error.at)
        return None, [problem("no-json", Place(file, line=line, column=column), why=error.why)]
    judge = Judge(text, file)
    election = judge.election(value)
    return (None, judge.problems) if judge.problems else (election, [])


class Judge:
    """Judges the JSON value of an election, and collects what is wrong with it."""

    def __init__(self, text: str, file: str):
        self.text, self.file = text, file
        self.problems: list[Problem] = []
        self.version = 1

    def add(self, name: str, at: Value, key: str, /, **facts: object) -> None:
        """Notes a problem with a value."""
        line, column = line_and_column(self.text, at.at)
        self.problems.append(problem(name, Place(self.file, line=line, column=column, key=key), **facts))

    def election(self, value: Value) -> Election | None:
        """The election of a value; `None` if the parts are not even there."""
        members = value.held
        if not isinstance(members, dict):
            self.add("election-no-object", value, "")
            return None
        self.keys(members, value, KEYS, ("version",), "")
        if "version" in members:
            self.version = self.whole(members["version"], "version", 1, 2) or 1
        contests = self.contests(members.get("contests"))
        styles = self.styles(members.get("styles"), len(contests))
        numbers = [
            self.whole(members[key], key, least, most) if key in members else None
            for key, least, most in (("limit", 1, MOST_BALLOTS), ("bits", 0, MOST_BITS))
        ]
        salt = self.salt(members.get("salt"))
        return Election(self.version, tuple(contests), tuple(styles), numbers[0] or 0, numbers[1] or 0, salt)

    def keys(
        self, members: dict[str, Value], at: Value, needed: tuple[str, ...], free: tuple[str, ...], key: str
    ) -> None:
        """Each key that is needed stands there, and no other."""
        for name in needed:
            if name not in members:
                self.add("election-key-missing", at, key, missing=name, keys=", ".join(needed))
        for name, value in members.items():
            if name not in needed + free:
                self.add("election-key-unknown", value, key, unknown=name, keys=", ".join(needed))

    def whole(self, value: Value, key: str, least: int, most: int) -> int | None:
        """A whole number in its range."""
        number = value.held.whole() if isinstance(value.held, Number) else None
        if number is None:
            self.add("election-no-whole-number", value, key, found=self.told(value))
        elif not least <= number <= most:
            self.add("election-out-of-range", value, key, found=number, least=least, most=f"{most:,}")
            return None
        return number

    def told(self, value: Value) -> str:
        """What a value is, for a person."""
        if isinstance(value.held, Number):
            return value.held.text[:40]
        if isinstance(value.held, (list, dict)):
            return "an array" if isinstance(value.held, list) else "an object"
        return json.dumps(value.held, ensure_ascii=False)[:60]

    def array(self, value: Value | None, key: str) -> list[Value]:
        """The values of an array."""
        if value is None:
            return []
        if not isinstance(value.held, list):
            self.add("election-no-array", value, key, found=self.told(value))
            return []
        return value.held

    def contests(self, value: Value | None) -> list[tuple[int, int]]:
        """The choices and the allowed marks of each contest."""
        found = self.array(value, "contests")
        most = MOST_CONTESTS[self.version]
        if value is not None and isinstance(value.held, list) and not 1 <= len(found) <= most:
            self.add("election-contest-count", value, "contests", count=len(found), version=self.version, most=most)
        return [self.contest(one, f"contest {number}") for number, one in enumerate(found, 1)]

    def contest(self, value: Value, key: str) -> tuple[int, int]:
        """The choices and the allowed marks of one contest."""
        members = value.held
        if not isinstance(members, dict):
            self.add("election-no-contest", value, key, found=self.told(value))
            return 1, 1
        self.keys(members, value, CONTEST_KEYS, (), key)
        most = MOST_CHOICES[self.version]
        choices = self.whole(members["choices"], f"{key}, choices", 1, most) if "choices" in members else None
        if "allowed" in members:
            self.whole(members["allowed"], f"{key}, allowed", 1, choices or most)
        allowed = members["allowed"].held if "allowed" in members else None
        return choices or 1, (allowed.whole() if isinstance(allowed, Number) else None) or 1

    def styles(self, value: Value | None, contests: int) -> list[tuple[int, ...]]:
        """The contest numbers of each style."""
        found = self.array(value, "styles")
        if value is not None and isinstance(value.held, list) and not 1 <= len(found) <= MOST_STYLES:
            self.add("election-style-count", value, "styles", count=len(found), most=MOST_STYLES)
        return [self.style(one, contests, f"style {number}") for number, one in enumerate(found, 1)]

    def style(self, value: Value, contests: int, key: str) -> tuple[int, ...]:
        """The contest numbers of one style, which ascend."""
        found = self.array(value, key)
        if isinstance(value.held, list) and not found:
            self.add("election-style-empty", value, key)
        numbers = [self.whole(one, key, 1, contests) for one in found]
        for one, number, before in zip(found[1:], numbers[1:], numbers):
            if number is not None and before is not None and number <= before:
                self.add("election-style-order", one, key, number=number, before=before)
        return tuple(number or 0 for number in numbers)

    def salt(self, value: Value | None) -> str:
        """The salt's sixteen digits."""
        if value is None:
            return ""
        if not isinstance(value.held, str) or SALT.fullmatch(value.held) is None:
            self.add("election-salt", value, "salt", found=self.told(value))
            return ""
        return value.held


def differences(book: Election, file: Election, place: Place) -> list[Problem]:
    """Where an election's file is not what its book makes: version, contests, styles. The rest is the file's alone."""
    found: list[Problem] = []
    say: Callable[..., None] = lambda name, key, **facts: found.append(problem(name, place.at(key), **facts))
    if book.version != file.version:
        say("version-differs", "version", book=book.version, file=file.version)
    if len(book.contests) != len(file.contests):
        say("contests-differ", "contests", book=len(book.contests), file=len(file.contests))
    for number, (mine, theirs) in enumerate(zip(book.contests, file.contests), 1):
        if mine[0] != theirs[0]:
            say("choices-differ", f"contest {number}", book=mine[0], file=theirs[0])
        if mine[1] != theirs[1]:
            say("allowed-differ", f"contest {number}", book=mine[1], file=theirs[1])
    if len(book.styles) != len(file.styles):
        say("styles-differ", "styles", book=len(book.styles), file=len(file.styles))
    for number, (style, other) in enumerate(zip(book.styles, file.styles), 1):
        if style != other:
            told = [" ".join(map(str, it)) for it in (style, other)]
            say("style-differs", f"style {number}", book=told[0], file=told[1])
    return found
