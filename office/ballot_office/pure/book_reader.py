"""Makes a book of a table as TOML or a spreadsheet gives it, and collects everything that is no book in it."""

import re
import tomllib
from bisect import bisect_right
from collections.abc import Iterable
from datetime import date, datetime
from itertools import islice
from typing import Any

from ballot_office.pure.book import BALLOTS, CANDIDATES, KINDS, MEASURE, VOTES, Book, Choice, Contest, Precinct, Style
from ballot_office.pure.problems import Place, Problem, problem
from ballot_office.pure.texts import text_problems
from ballot_office.pure.toml_places import Path, places_of

ID = re.compile(r"[A-Za-z][A-Za-z0-9._-]{0,31}")
LANGUAGE = re.compile(r"[a-z]{2,3}(?:-[A-Za-z0-9]{2,8})*")
THRESHOLD = re.compile(r"(more than|at least) ([1-9]\d{0,5})(?:/([1-9]\d{0,5})|(?:\.(\d{1,4}))?%)")
TOML_AT = re.compile(r"^(.*?)(?: \(at line (\d+), column (\d+)\)| \(at end of document\))$", re.DOTALL)
BOOK_KEYS = ("title", "jurisdiction", "date", "languages", "precincts", "contests", "styles")
CONTEST_KEYS = ("id", "title", "kind", "allowed", "seats", "threshold", "threshold_of", "choices")
CHOICE_KEYS = ("id", "name", "party", "write_in")
STYLE_KEYS = ("id", "name", "contests")
PRECINCT_KEYS = ("id", "name", "expected")


class Places:
    """Where the parts of a book stand: those of a path that is not known stand where the nearest known one does."""

    def __init__(self, file: str, known: dict[Path, Place]):
        self.file, self.known = file, known

    def of(self, path: Path) -> Place:
        """The place of a path, with the path as its key where the place tells no column of a table."""
        nearest = path
        while nearest and nearest not in self.known:
            nearest = nearest[:-1]
        place = self.known.get(nearest, Place(self.file))
        return place if place.row or place.key else place.at(key_words(path))


def key_words(path: Path) -> str:
    """A path as a person reads it: `contests 2, choices 3, name`."""
    words: list[str] = []
    for part in path:
        if isinstance(part, int) and words:
            words[-1] += f" {part + 1}"
        else:
            words.append(str(part))
    return ", ".join(words)


def read_book(data: bytes, file: str) -> tuple[Book | None, Places, list[Problem]]:
    """The book of a TOML file, where its parts stand, and everything for which it is none (as `book_of`)."""
    nowhere = Places(file, {})
    try:
        text = data.decode("utf-8-sig")
        table = tomllib.loads(text)
    except UnicodeDecodeError as error:
        line = data.count(b"\n", 0, error.start) + 1
        return None, nowhere, [problem("text-not-utf8", Place(file, line=line), byte=f"{data[error.start]:02x}")]
    except tomllib.TOMLDecodeError as error:
        told = TOML_AT.match(str(error))
        line, column = (int(told[2] or 0), int(told[3] or 0)) if told else (0, 0)
        why = told[1] if told else str(error)
        return None, nowhere, [problem("no-toml", Place(file, line=line, column=column), why=why)]
    except RecursionError:
        return None, nowhere, [problem("no-toml", Place(file), why="Values stand too deep in each other")]
    text = text.replace("\r\n", "\n")
    begins = [0, *(it.end() for it in re.finditer("\n", text))]
    places = Places(file, {path: line_place(file, begins, at) for path, at in places_of(text).items()})
    book, problems = book_of(table, places)
    return book, places, problems


def line_place(file: str, begins: list[int], at: int) -> Place:
    """The line and column of a place in a text whose lines begin at these places."""
    line = bisect_right(begins, at)
    return Place(file, line=line, column=at - begins[line - 1] + 1)


def book_of(table: dict[str, Any], places: Places) -> tuple[Book, list[Problem]]:
    """The book of a table, and everything for which it is none. What is wrong is empty in it, so that the rest can be
    checked all the same."""
    reader = BookReader(places)
    return reader.book(table), reader.problems


class BookReader:
    """Reads the parts of a table, and collects problems. What is wrong counts as empty, so that the reading goes on."""

    def __init__(self, places: Places):
        self.places = places
        self.problems: list[Problem] = []

    def add(self, name: str, path: Path, /, **facts: object) -> None:
        """Notes a problem at a path."""
        self.problems.append(problem(name, self.places.of(path), **facts))

    def known(self, table: dict[str, Any], keys: tuple[str, ...], path: Path) -> None:
        """Each key of a table is one of these."""
        for key in table:
            if key not in keys:
                self.add("key-unknown", (*path, key), unknown=key, keys=", ".join(keys))

    def text(self, table: dict[str, Any], key: str, path: Path, needed: bool = True) -> str:
        """A text of one line."""
        value = table.get(key, "")
        if not isinstance(value, str):
            self.add("no-text", (*path, key), found=kind_of(value))
            return ""
        if not value and needed:
            self.add("text-missing", (*path, key), key=key)
        if value:
            self.problems += text_problems(value, self.places.of((*path, key)))
        return value

    def id(self, table: dict[str, Any], path: Path, taken: dict[str, Path]) -> str:
        """An id, which nothing of its kind has yet."""
        value = table.get("id", "")
        where: Path = (*path, "id")
        if not isinstance(value, str):
            self.add("no-text", where, found=kind_of(value))
            return ""
        if not value:
            self.add("text-missing", where, key="id")
        elif ID.fullmatch(value) is None:
            self.add("bad-id", where, id=value)
        elif value in taken:
            self.add("id-twice", where, id=value, first=key_words(taken[value]))
        taken.setdefault(value, path)
        return value

    def count(self, table: dict[str, Any], key: str, path: Path, least: int, default: int | None) -> int:
        """A whole number that is at least so large."""
        value = table.get(key, default)
        if value is None:
            self.add("number-missing", (*path, key), key=key)
        elif isinstance(value, bool) or not isinstance(value, int):
            self.add("no-number", (*path, key), found=value if isinstance(value, str) else kind_of(value))
        elif not least <= value <= 10**9:
            self.add("number-out-of-range", (*path, key), found=value, least=least)
        else:
            return value
        return least

    def tables(self, table: dict[str, Any], key: str, path: Path) -> list[tuple[Path, dict[str, Any]]]:
        """The tables of an array, with their paths."""
        value = table.get(key, [])
        if not isinstance(value, list) or not all(isinstance(it, dict) for it in value):
            self.add("no-tables", (*path, key), key=key)
            return []
        return [((*path, key, index), it) for index, it in enumerate(value)]

    def texts(self, table: dict[str, Any], key: str, path: Path) -> list[str]:
        """The texts of an array."""
        value = table.get(key, [])
        if not isinstance(value, list) or not all(isinstance(it, str) for it in value):
            self.add("no-texts", (*path, key), key=key)
            return []
        return value

    def book(self, table: dict[str, Any]) -> Book:
        """The whole book."""
        self.known(table, BOOK_KEYS, ())
        ids: dict[str, Path] = {}
        contests = tuple(self.contest(it, path, ids) for path, it in self.tables(table, "contests", ()))
        style_ids: dict[str, Path] = {}
        styles = tuple(self.style(it, path, style_ids, ids) for path, it in self.tables(table, "styles", ()))
        precinct_ids: dict[str, Path] = {}
        precincts = [
            self.precinct(it, path, precinct_ids, style_ids) for path, it in self.tables(table, "precincts", ())
        ]
        title, jurisdiction = self.text(table, "title", ()), self.text(table, "jurisdiction", ())
        return Book(title, jurisdiction, self.date(table), self.languages(table), tuple(precincts), contests, styles)

    def date(self, table: dict[str, Any]) -> date:
        """The day of the election."""
        value = table.get("date")
        if isinstance(value, date) and not isinstance(value, datetime):
            return value
        self.add("no-date", ("date",), found="nothing" if value is None else str(value))
        return date(1, 1, 1)

    def languages(self, table: dict[str, Any]) -> tuple[str, ...]:
        """The languages of the sheets, the book's own first."""
        found = self.texts(table, "languages", ()) if "languages" in table else ["en"]
        for index, tag in enumerate(found):
            if LANGUAGE.fullmatch(tag) is None:
                self.add("no-language", ("languages", index), found=tag)
        if not found:
            self.add("no-language", ("languages",), found="an empty list")
        return tuple(found)

    def contest(self, table: dict[str, Any], path: Path, taken: dict[str, Path]) -> Contest:
        """One contest."""
        self.known(table, CONTEST_KEYS, path)
        name, title = self.id(table, path, taken), self.text(table, "title", path)
        kind = self.text(table, "kind", path)
        if kind and kind not in KINDS:
            self.add("no-kind", (*path, "kind"), found=kind)
        allowed = self.count(table, "allowed", path, 1, 1 if kind == MEASURE else None)
        seats = self.count(table, "seats", path, 1, 1) if kind == CANDIDATES else 0
        if kind == MEASURE and "seats" in table:
            self.add("seats-of-measure", (*path, "seats"))
        threshold, threshold_of = self.threshold(table, path, kind)
        ids: dict[str, Path] = {}
        choices = tuple(self.choice(it, where, ids) for where, it in self.tables(table, "choices", path))
        return Contest(name, title, kind, allowed, seats, threshold, threshold_of, choices)

    def threshold(self, table: dict[str, Any], path: Path, kind: str) -> tuple[str, str]:
        """What the first choice of a measure needs, and of what."""
        if kind != MEASURE:
            for key in ("threshold", "threshold_of"):
                if key in table:
                    self.add("threshold-of-candidates", (*path, key), key=key)
            return "", ""
        threshold, of = self.text(table, "threshold", path), self.text(table, "threshold_of", path)
        found = THRESHOLD.fullmatch(threshold)
        over = int(found[3] or 100) if found else 1
        if threshold and (found is None or int(found[2]) > over or (int(found[2]) == over and found[1] == "more than")):
            self.add("no-threshold", (*path, "threshold"), found=threshold)
        if of and of not in (VOTES, BALLOTS):
            self.add("no-threshold-of", (*path, "threshold_of"), found=of)
        return threshold, of

    def choice(self, table: dict[str, Any], path: Path, taken: dict[str, Path]) -> Choice:
        """One choice of a contest."""
        self.known(table, CHOICE_KEYS, path)
        write_in = table.get("write_in", False)
        if not isinstance(write_in, bool):
            self.add("no-yes-or-no", (*path, "write_in"), found=write_in)
        name, party = self.text(table, "name", path), self.text(table, "party", path, needed=False)
        return Choice(self.id(table, path, taken), name, party, write_in is True)

    def style(self, table: dict[str, Any], path: Path, taken: dict[str, Path], contests: dict[str, Path]) -> Style:
        """One style."""
        self.known(table, STYLE_KEYS, path)
        names = self.texts(table, "contests", path)
        seen: set[str] = set()
        for index, name in enumerate(names):
            if name not in contests:
                self.add("contest-unknown", (*path, "contests", index), id=name, known=listed(contests))
            elif name in seen:
                self.add("contest-twice", (*path, "contests", index), id=name)
            seen.add(name)
        if not names:
            self.add("style-empty", (*path, "contests"))
        return Style(self.id(table, path, taken), self.text(table, "name", path), tuple(names))

    def precinct(self, table: dict[str, Any], path: Path, taken: dict[str, Path], styles: dict[str, Path]) -> Precinct:
        """One precinct."""
        self.known(table, PRECINCT_KEYS, path)
        expected = table.get("expected", {})
        if not isinstance(expected, dict):
            self.add("no-tables", (*path, "expected"), key="expected")
            expected = {}
        voters = {}
        for style in expected:
            if style not in styles:
                self.add("style-unknown", (*path, "expected", style), id=style, known=listed(styles))
            voters[style] = self.count(expected, style, (*path, "expected"), 0, 0)
        return Precinct(self.id(table, path, taken), self.text(table, "name", path), voters)


def listed(ids: Iterable[str], most: int = 30) -> str:
    """Ids for a person; of very many the first ones."""
    found = list(islice(ids, most + 1))
    return ", ".join(found[:most]) + (", .." if len(found) > most else "")


def kind_of(value: Any) -> str:
    """What a value of a TOML file is, for a person."""
    kinds = {bool: "true or false", int: "a number", float: "a number with a point", str: "a text", list: "an array"}
    return kinds.get(type(value), "a table" if isinstance(value, dict) else "a date or time")
