"""Books and elections as files."""

import tomli_w

from ballot_office.pure.book import Book, table_of
from ballot_office.pure.book_checks import FEW, book_problems
from ballot_office.pure.book_reader import Places, read_book
from ballot_office.pure.election import Election, read_election
from ballot_office.pure.problems import ERROR, Problem, Refused
from ballot_office.store.files import read_file
from ballot_office.store.program import read_election_file

FOUND = 1
FRONT = """\
# The book of an election. `man ballot-office-election-make` has each key.
# Check it after each change:  ballot-office election check THIS-FILE

"""


def book_data(book: Book) -> bytes:
    """The TOML file of a book."""
    return (FRONT + tomli_w.dumps(table_of(book))).encode()


def check_book_file(file: str, few: int = FEW) -> tuple[Book | None, Places, list[Problem], bytes]:
    """The book of a file, where its parts stand, everything that is found in it, and its bytes. Raises `Refused`.

    The book is good only if none of what is found is an error.
    """
    data = read_file(file)
    book, places, problems = read_book(data, file)
    if book is not None:
        problems = problems + book_problems(book, places, few)
    return book, places, problems, data


def good_book(file: str) -> tuple[Book, list[Problem], bytes]:
    """A book without errors, its warnings and notes, and its bytes. Raises `Refused`."""
    book, _, problems, data = check_book_file(file)
    errors = [it for it in problems if it.weight == ERROR]
    if book is None or errors:
        raise Refused(errors, FOUND)
    return book, [it for it in problems if it.weight != ERROR], data


def good_election(file: str) -> tuple[Election, bytes]:
    """The election of a file, and its bytes. Raises `Refused`."""
    data = read_election_file(file)
    election, problems = read_election(data, file)
    if election is None:
        raise Refused(problems, FOUND)
    return election, data
