"""Large inputs take time in proportion to their size: eight times the rows far less than 64 times the time."""

import datetime
import gc
import time
from collections.abc import Callable
from functools import partial

import pytest

from ballot_office.pure.book_checks import book_problems
from ballot_office.pure.book_reader import read_book
from ballot_office.pure.election import read_election
from ballot_office.pure.numbers import read_list
from ballot_office.pure.tables import book_from_tables
from ballot_office.store.books import book_data

FRONT = {"title": "T", "jurisdiction": "J", "date": datetime.date(2026, 11, 3), "languages": ["en"]}
SMALL, TIMES, MOST = 200, 8, 32
Work = Callable[[], object]
Tables = tuple[tuple[str, bytes], tuple[str, bytes], tuple[str, bytes]]


def tables(count: int) -> Tables:
    """Tables of so many contests, each with two choices, and with a style and a precinct of its own."""
    contests, choices = ["contest,title,votes allowed"], ["contest,choice,name"]
    styles = ["style,name,contests,precinct,expected"]
    for at in range(count):
        contests.append(f"x{at},Contest {at},1")
        choices += [f"x{at},a,Name {at}", f"x{at},b,Other {at}"]
        styles.append(f"s{at},Style {at},x{at},p{at},900")
    first, second, third = ("\n".join(rows).encode() for rows in (contests, choices, styles))
    return ("contests.csv", first), ("choices.csv", second), ("styles.csv", third)


def import_of(count: int) -> Work:
    """A book made from tables."""
    made = tables(count)
    return lambda: book_from_tables(FRONT, *made)


def unknown_contests_of(count: int) -> Work:
    """Tables whose choices are all of contests that are not there."""
    contests, choices, styles = tables(count)
    return lambda: book_from_tables(FRONT, contests, (choices[0], choices[1].replace(b"x", b"y")), styles)


def checks_of(count: int) -> Work:
    """The checks of a book."""
    book, places, _ = book_from_tables(FRONT, *tables(count))
    assert book
    return partial(book_problems, book, places)


def book_of(count: int) -> Work:
    """A book read from its file."""
    book, _, _ = book_from_tables(FRONT, *tables(count))
    assert book
    data = book_data(book)
    return lambda: read_book(data, "b.toml")


def election_of(count: int) -> Work:
    """An election's file with too many contests and styles."""
    contests = ",".join(['{"choices":2,"allowed":1}'] * 4 * count)
    styles = ",".join(f"[{at + 1}]" for at in range(4 * count))
    text = f'{{"contests":[{contests}],"styles":[{styles}],"limit":1,"bits":0,"salt":"0000000000000000"}}'
    return lambda: read_election(text.encode(), "e.json")


def list_of(count: int) -> Work:
    """A list of numbers."""
    data = "".join(f"{at + 1}\n" for at in range(40 * count)).encode()
    return lambda: read_list(data, "n")


def least_time(work: Work) -> float:
    """The least processor time of two runs."""
    found = []
    for _ in range(2):
        gc.collect()
        began = time.process_time()
        work()
        found.append(time.process_time() - began)
    return min(found)


KINDS = {
    "tables": import_of,
    "unknown contests": unknown_contests_of,
    "checks": checks_of,
    "book": book_of,
    "election": election_of,
    "list": list_of,
}


@pytest.mark.parametrize("kind", KINDS)
def test_time_follows_size(kind: str) -> None:
    """Eight times the rows take less than 32 times the time: what looks at each pair takes 64 times."""
    assert least_time(KINDS[kind](SMALL * TIMES)) < MOST * least_time(KINDS[kind](SMALL))
