"""A book from tables as spreadsheets save them: CSV in UTF-8, by `,` or `;`, its columns in any order."""

import csv
import io
import re
import unicodedata
from collections.abc import Iterator
from dataclasses import dataclass, field
from typing import Any

from ballot_office.pure.book import CANDIDATES, MEASURE, Book
from ballot_office.pure.book_reader import Places, book_of, listed
from ballot_office.pure.problems import Place, Problem, problem
from ballot_office.pure.toml_places import Path

# The headings of each table: the key, the spellings that are taken for it, and whether it is needed.
CONTESTS = (
    ("id", ("contest", "id"), True),
    ("title", ("title", "name"), True),
    ("kind", ("kind",), False),
    ("allowed", ("votes allowed", "allowed", "vote for"), False),
    ("seats", ("seats", "seats to fill"), False),
    ("threshold", ("threshold",), False),
    ("threshold_of", ("threshold of",), False),
)
CHOICES = (
    ("contest", ("contest",), True),
    ("id", ("choice", "id"), False),
    ("name", ("name",), True),
    ("party", ("party",), False),
    ("write_in", ("write in",), False),
)
STYLES = (
    ("id", ("style", "id"), True),
    ("name", ("name",), True),
    ("contests", ("contests",), True),
    ("precinct", ("precinct",), False),
    ("precinct_name", ("precinct name",), False),
    ("expected", ("expected", "expected voters"), False),
)
YES = frozenset(("yes", "y", "true", "1", "x"))
NO = frozenset(("", "no", "n", "false", "0"))
Columns = tuple[tuple[str, tuple[str, ...], bool], ...]


@dataclass(frozen=True)
class Row:
    """One row of a table: its cells by key, and the places of these."""

    place: Place
    cells: dict[str, str]
    places: dict[str, Place]


@dataclass
class Made:
    """A book's table while it is made, with the places of its parts and the problems met."""

    table: dict[str, Any]
    known: dict[Path, Place] = field(default_factory=dict)
    problems: list[Problem] = field(default_factory=list)


def book_from_tables(
    front: dict[str, Any], contests: tuple[str, bytes], choices: tuple[str, bytes], styles: tuple[str, bytes] | None
) -> tuple[Book | None, Places, list[Problem]]:
    """The book of two or three tables, each a file's name and its bytes, where its parts stand, and all problems.

    `front` has what no table tells: title, jurisdiction, date and languages. Without a table of styles there is one
    style, with every contest.
    """
    made = Made(dict(front))
    for key in front:
        made.known[(key,)] = Place(key=f"--{key}")
    rows = [list(_rows(*table, columns, made)) for table, columns in ((contests, CONTESTS), (choices, CHOICES))]
    if styles is not None:
        rows.append(list(_rows(*styles, STYLES, made)))
    places = Places(contests[0], made.known)
    if not all(rows):  # what a table says rests on the ids of another: none is judged without the others
        return None, places, made.problems
    _put_contests(rows[0], made)
    _put_choices(rows[1], made)
    if styles is None:
        every = [it["id"] for it in made.table["contests"]]
        made.table["styles"] = [{"id": "all", "name": "Every contest", "contests": every}]
    else:
        _put_styles(rows[2], made)
    book, problems = book_of(made.table, places)
    return book, places, made.problems + problems


def _rows(file: str, data: bytes, columns: Columns, made: Made) -> Iterator[Row]:
    """The rows of a table under its headings. An empty row is none."""
    try:
        text = data.decode("utf-8-sig")
    except UnicodeDecodeError as error:
        line = data.count(b"\n", 0, error.start) + 1
        made.problems.append(problem("text-not-utf8", Place(file, line=line), byte=f"{data[error.start]:02x}"))
        return
    first, separator = _separator(text)
    reader = csv.reader(io.StringIO(text, newline=""), delimiter=separator, strict=True)
    number = 0
    try:
        records = []
        for number, cells in enumerate(reader, 1):
            records.append((number, [unicodedata.normalize("NFC", it).strip() for it in cells]))
    except csv.Error as error:
        made.problems.append(problem("no-csv", Place(file, row=number + 1), why=error))
        return
    records = [(number, cells) for number, cells in records if number > first and any(cells)]
    if len(records) < 2:
        made.problems.append(problem("table-empty", Place(file)))
        return
    yield from _cells(file, records, columns, made)


def _separator(text: str) -> tuple[int, str]:
    """How many lines stand in front of the headings (Excel's `sep=;`), and what separates cells."""
    told = re.match(r"sep=([^\r\n\"])\r?\n", text)
    if told:
        return 1, told[1]
    heading = re.sub(r'"[^"]*"', "", text.lstrip("\r\n").split("\n", 1)[0])
    return 0, max(",;\t", key=heading.count)


def _cells(file: str, records: list[tuple[int, list[str]]], columns: Columns, made: Made) -> Iterator[Row]:
    """The records as rows, by the headings of the first."""
    number, headings = records[0]
    names = "; ".join(spellings[0] for _, spellings, _ in columns)
    keys: list[str] = []
    for heading in headings:
        simple = re.sub(r"[\s_-]+", " ", heading.casefold()).strip()
        key = next((key for key, spellings, _ in columns if simple in spellings), "")
        if heading and not key:
            made.problems.append(problem("heading-unknown", Place(file, row=number, heading=heading), headings=names))
        elif key and key in keys:
            made.problems.append(problem("heading-twice", Place(file, row=number, heading=heading)))
            key = ""
        keys.append(key)
    lacking = [spellings[0] for key, spellings, needed in columns if needed and key not in keys]
    for name in lacking:
        made.problems.append(problem("heading-missing", Place(file, row=number), missing=name, headings=names))
    for number, cells in [] if lacking else records[1:]:
        place = Place(file, row=number)
        width = len(keys)
        if any(cells[width:]):
            made.problems.append(problem("row-too-long", place, count=len(cells), headings=width))
        found = {key: cell for key, cell in zip(keys, cells) if key}
        places = {key: Place(file, row=number, heading=headings[at]) for at, key in enumerate(keys) if key}
        yield Row(place, found, places)


def _put(made: Made, path: Path, row: Row, table: dict[str, Any], *keys: str) -> None:
    """Puts the cells of these keys, where they are not empty, into a table of the book, with their places."""
    made.known[path] = row.place
    for key in keys:
        if key in row.places:
            made.known[(*path, key)] = row.places[key]
        if row.cells.get(key):
            table[key] = row.cells[key]


def _number(table: dict[str, Any], key: str) -> None:
    """Makes a cell a number where it is one; what is none, the book's reader tells."""
    if key in table and re.fullmatch(r"[0-9]{1,9}", table[key]):
        table[key] = int(table[key])


def _put_contests(rows: list[Row], made: Made) -> None:
    """The contests of their table."""
    made.table["contests"] = []
    for index, row in enumerate(rows):
        table: dict[str, Any] = {"id": "", "choices": []}
        _put(made, ("contests", index), row, table, *(key for key, *_ in CONTESTS))
        made.known[("contests", index, "choices")] = row.place
        table.setdefault("kind", MEASURE if "threshold" in table else CANDIDATES)
        table["kind"] = table["kind"].casefold()
        for key in ("allowed", "seats"):
            _number(table, key)
        for key in ("threshold", "threshold_of"):
            if key in table:
                table[key] = table[key].casefold()
        made.table["contests"].append(table)


def _put_choices(rows: list[Row], made: Made) -> None:
    """The choices of their table, each in its contest, in the order of the rows."""
    contests = {it["id"]: (index, it) for index, it in reversed([*enumerate(made.table["contests"])])}
    for row in rows:
        name = row.cells.get("contest", "")
        if name not in contests:
            known = listed(it["id"] for it in made.table["contests"])
            made.problems.append(problem("contest-unknown", row.places["contest"], id=name or "(empty)", known=known))
            continue
        at, contest = contests[name]
        number = len(contest["choices"])
        table: dict[str, Any] = {"id": f"c{number + 1}"}
        _put(made, ("contests", at, "choices", number), row, table, "id", "name", "party", "write_in")
        said = row.cells.get("write_in", "").casefold()
        table["write_in"] = said in YES if said in YES | NO else row.cells["write_in"]
        contest["choices"].append(table)


def _put_styles(rows: list[Row], made: Made) -> None:
    """The styles of their table, and the precincts with their expected voters."""
    styles: dict[str, dict[str, Any]] = {}
    firsts: dict[str, int] = {}
    precincts: dict[str, dict[str, Any]] = {}
    every = [it["id"] for it in made.table["contests"]]
    numbers: dict[str, int] = {}
    for row in rows:
        table: dict[str, Any] = {"id": ""}
        name = row.cells.get("id", "")
        if name not in styles:
            _put(made, ("styles", len(styles)), row, table, "id", "name", "contests")
            said = table.get("contests", "")
            table["contests"] = every if said.casefold() == "all" else re.findall(r"[^\s,;]+", said)
            styles[name], firsts[name] = table, row.place.row
            styles[name]["said"] = said
        else:
            _same_style(row, styles[name], firsts[name], made)
        _put_expected(row, name, precincts, numbers, made)
    for table in styles.values():
        del table["said"]
    made.table["styles"] = list(styles.values())
    if precincts:
        made.table["precincts"] = list(precincts.values())


def _same_style(row: Row, style: dict[str, Any], first: int, made: Made) -> None:
    """A later row of a style says the same as the first one, or nothing."""
    for key, known in (("name", style.get("name", "")), ("contests", style["said"])):
        if row.cells.get(key, "") not in ("", known):
            name = style["id"]
            made.problems.append(problem("style-rows-differ", row.places[key], id=name, what=key, first=first))


def _put_expected(
    row: Row, style: str, precincts: dict[str, dict[str, Any]], numbers: dict[str, int], made: Made
) -> None:
    """The precinct of a row, with its number among the precincts, and how many voters of the style it expects."""
    name, expected = row.cells.get("precinct", ""), row.cells.get("expected", "")
    if not name:
        if expected:
            made.problems.append(problem("expected-alone", row.places["expected"]))
        return
    path: Path = ("precincts", numbers.setdefault(name, len(precincts)))
    if name not in precincts:
        precincts[name] = {"id": name, "name": row.cells.get("precinct_name") or name, "expected": {}}
        made.known[path] = row.place
        made.known[(*path, "id")] = row.places["precinct"]
        made.known[(*path, "name")] = row.places.get("precinct_name", row.places["precinct"])
    voters = precincts[name]["expected"]
    if style in voters:
        made.problems.append(problem("expected-twice", row.place, id=style, precinct=name))
    made.known[(*path, "expected", style)] = row.places.get("expected", row.place)
    if expected:
        cell: dict[str, Any] = {"n": expected}
        _number(cell, "n")
        voters[style] = cell["n"]
