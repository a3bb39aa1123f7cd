"""Every error text, with the input that makes it."""

import datetime
import hashlib
from collections.abc import Sequence
from pathlib import Path

import pytest
from conftest import Command
from messages import BOOKS, COMMANDS, ELECTIONS, TABLES
from samples import CHOICES, CONTESTS, GOOD_BOOK, GOOD_ELECTION, STYLES, changed

from ballot_office.pure.book import election_of
from ballot_office.pure.book_checks import book_problems
from ballot_office.pure.book_reader import read_book
from ballot_office.pure.election import differences, read_election
from ballot_office.pure.problems import Place, Problem, sentence
from ballot_office.pure.rules import RULES
from ballot_office.pure.tables import book_from_tables

FRONT = {"title": "T", "jurisdiction": "J", "date": datetime.date(2026, 11, 3), "languages": ["en"]}


def election_problems(old: str, new: str) -> list[Problem]:
    """What is found in a changed election's file."""
    return read_election(changed(GOOD_ELECTION, old, new), "e.json")[1]


def beside_book(old: str, new: str) -> list[Problem]:
    """What is found in a changed election's file beside the book."""
    book = read_book(GOOD_BOOK.encode(), "b.toml")[0]
    assert book
    mine = '{"contests":[{"choices":3,"allowed":1},{"choices":2,"allowed":1}],"styles":[[1,2],[1]],' + (
        '"limit":8,"bits":3,"salt":"0000000000000000"}'
    )
    one, problems = read_election(changed(mine, old, new), "e.json")
    assert one, problems
    return differences(election_of(book, 8, 3, one.salt), one, Place("e.json"))


def of_book(old: str, new: str) -> list[Problem]:
    """What is found in a changed book."""
    book, places, problems = read_book(changed(GOOD_BOOK, old, new), "b.toml")
    return problems + (book_problems(book, places) if book else [])


def of_tables(which: int, old: str, new: str) -> list[Problem]:
    """What is found in tables one of which is changed."""
    names = ("contests.csv", "choices.csv", "styles.csv")
    tables = [(name, text.encode()) for name, text in zip(names, (CONTESTS, CHOICES, STYLES))]
    tables[which] = names[which], changed((CONTESTS, CHOICES, STYLES)[which], old, new)
    book, places, problems = book_from_tables(FRONT, tables[0], tables[1], tables[2])
    return problems + (book_problems(book, places) if book else [])


def names_of(rows: Sequence[tuple[object, ...]]) -> list[str]:
    """The rules of rows, which name the tests."""
    return [str(row[0]) for row in rows]


def named(rule: str, problems: list[Problem]) -> str:
    """The sentence of the problem of this rule."""
    found = [sentence(it) for it in problems if it.name == rule]
    assert found, [sentence(it) for it in problems]
    return found[0]


@pytest.mark.parametrize("rule, old, new, said", ELECTIONS, ids=names_of(ELECTIONS))
def test_election(rule: str, old: str, new: str, said: str) -> None:
    """What is wrong with an election's file."""
    found = beside_book(old, new) if "differ" in rule else election_problems(old, new)
    assert named(rule, found) == said


@pytest.mark.parametrize("rule, old, new, said", BOOKS, ids=names_of(BOOKS))
def test_book(rule: str, old: str, new: str, said: str) -> None:
    """What is wrong with a book."""
    assert named(rule, of_book(old, new)) == said


@pytest.mark.parametrize("rule, which, old, new, said", TABLES, ids=names_of(TABLES))
def test_tables(rule: str, which: int, old: str, new: str, said: str) -> None:
    """What is wrong with tables."""
    assert named(rule, of_tables(which, old, new)) == said


def put_files(room: Path) -> dict[str, str]:
    """The files that the commands of the table name, and the sums of those that stand for a program."""
    files = {"b.toml": GOOD_BOOK, "e.json": GOOD_ELECTION, "none.toml": GOOD_BOOK.split("[[precincts]]", maxsplit=1)[0]}
    files |= {"list": "1\n2\n", "bad": "0\n", "twice": "7\n7\n", "empty": ""}
    files["counter"] = "".join(f"{7 + 3 * at}\n" for at in range(200))
    files["two.toml"] = GOOD_BOOK.replace(
        'id = "lee"\nname = "Bo Lee"', 'id = "lee"\nname = "Write-in"\nwrite_in = true'
    )
    programs = {"PLAIN": "#!/bin/sh\nexit 5\n", "NINE": "#!/bin/sh\necho ballot_store: no store >&2\nexit 9\n"}
    programs["UNRUN"] = "no program\n"
    for name, text in files.items():
        (room / name).write_text(text)
    for name, text in programs.items():
        (room / name.lower()).write_text(text)
        (room / name.lower()).chmod(0o755)
    (room / "folder").mkdir()
    with open(room / "large", "wb") as large:
        large.truncate(70 << 20)
    return {name: hashlib.sha256(text.encode()).hexdigest() for name, text in programs.items()}


@pytest.mark.parametrize("rule, status, words, said", COMMANDS, ids=names_of(COMMANDS))
def test_commands(rule: str, status: int, words: str, said: str, office: Command, tmp_path: Path) -> None:
    """What is said where words, files and programs fail."""
    sums = put_files(tmp_path)
    ended = office(*(sums.get(word, word) for word in words.split("|")))
    assert said in ended.err, ended.err
    assert ended.status == status
    assert rule in RULES


def test_each_rule_has_an_input() -> None:
    """Each rule of the catalogue stands in one of the tables, or is told by a test of its own."""
    own = {"libraries-missing", "stopped", "bug", "output-unwritten", "election-too-long", "election-not-utf8"}
    own |= {"text-not-utf8", "program-missing", "program-not-served", "file-undestroyed"}
    tables = {row[0] for row in (*ELECTIONS, *BOOKS, *TABLES, *COMMANDS)}
    assert tables | own == set(RULES)
    assert not tables & own
