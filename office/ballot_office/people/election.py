"""The commands on elections: a book from tables, an election from a book, what is wrong with either, and names."""

import re
from datetime import date

import click

from ballot_office.people import pages
from ballot_office.people.screen import counted, say, tell
from ballot_office.pure.book import Book, election_of
from ballot_office.pure.book_checks import FEW, book_problems
from ballot_office.pure.election import (
    MOST_BALLOTS,
    SALT,
    bits_of,
    differences,
    election_text,
    limit_of,
    medium_size,
    read_election,
)
from ballot_office.pure.names import line_of, line_words, names_of
from ballot_office.pure.problems import ERROR, Place, Problem, Refused, is_found, problem, sentence
from ballot_office.pure.tables import book_from_tables
from ballot_office.store.books import FOUND, book_data, check_book_file, good_book, good_election
from ballot_office.store.chance import draw_salt
from ballot_office.store.files import PUBLIC, read_file, sha256, write_new
from ballot_office.store.program import audit, find_program, read_election_file

FILE = click.Path(path_type=str)


class Told:
    """What the options of the whole program say: which `ballot_store` is used, and its sum."""

    def __init__(self, path: str, named_sum: str):
        self.path, self.named_sum = path, named_sum


@click.group()
def election() -> None:
    """Books and elections: what people write, and what the program reads.

    A book is a TOML file with names, parties, titles and all that the program does not know. The program's election is
    made from it and has numbers alone. Nothing that these commands write depends on how anybody voted.
    """


@election.command("from-tables")
@click.argument("contests", type=FILE)
@click.argument("choices", type=FILE)
@click.argument("styles", type=FILE, required=False)
@click.option("--out", required=True, type=FILE, help="The book that is written; a file of this name is left alone.")
@click.option("--title", required=True, help="The election's title.")
@click.option("--jurisdiction", required=True, help="Whose election it is.")
@click.option("--date", "day", required=True, help="Its day, as 2026-11-03.")
@click.option(
    "--language", "languages", multiple=True, default=("en",), help="A language of the sheets; several times."
)
def from_tables(
    contests: str,
    choices: str,
    styles: str | None,
    out: str,
    title: str,
    jurisdiction: str,
    day: str,
    languages: tuple[str, ...],
) -> None:
    """Writes a book from spreadsheets saved as CSV: UTF-8, cells separated by commas or semicolons.

    Columns stand in any order under these headings. CONTESTS: contest (a short id), title; and as needed kind
    (candidates or measure), votes allowed, seats, threshold, threshold of. CHOICES: contest, name; and as needed
    choice (an id), party, write-in (yes or no). STYLES: style (an id), name, contests (their ids with spaces between
    them, or all); and as needed precinct, precinct name, expected (voters). Without STYLES every sheet has every
    contest. The order of the rows is that of the numbers.

    All mistakes are told at once, each with its file, row and column. The book has nothing that identifies a voter.
    """
    front = {"title": title, "jurisdiction": jurisdiction, "date": _day(day), "languages": list(languages)}
    tables = [(name, read_file(name)) for name in (contests, choices)]
    book, places, problems = book_from_tables(
        front, tables[0], tables[1], (styles, read_file(styles)) if styles else None
    )
    if book is not None:
        problems = problems + book_problems(book, places)
    tell(problems)
    if book is None or any(it.weight == ERROR for it in problems):
        raise Refused([], FOUND)
    write_new(out, book_data(book), PUBLIC)
    say(f"book {out}: {_sizes(book)}")


def _day(text: str) -> date | str:
    """A day as it is typed, or the text where it is none, which the book's reader then tells."""
    try:
        return date.fromisoformat(text) if re.fullmatch(r"\d{4}-\d\d-\d\d", text) else text
    except ValueError:
        return text


def _sizes(book: Book) -> str:
    """How large a book is, for a person who compares it with the spreadsheets."""
    choices = sum(len(it.choices) for it in book.contests)
    parts = ((len(book.contests), "contest"), (choices, "choice"), (len(book.styles), "style"))
    words = [f"{count} {name}{'' if count == 1 else 's'}" for count, name in parts]
    return ", ".join(words + ([f"{len(book.precincts)} precincts"] if book.precincts else []))


@election.command("make")
@click.argument("book", type=FILE)
@click.option("--election", "file", required=True, type=FILE, help="The file that is made; one that is there stays.")
@click.option("--expected", type=click.IntRange(1), help="Ballots expected (else: voters expected by the book).")
@click.option("--parts", type=click.Choice(["1", "2", "4", "8"]), default="1", help="Into how many parts a store goes.")
@click.option("--precinct", default="", help="Whose expected voters count (else: the precinct with most).")
@click.option("--salt", default="", help="16 hexadecimal digits, thrown by dice; else the system draws them.")
def make(book: str, file: str, expected: int | None, parts: str, precinct: str, salt: str) -> None:
    """Makes the program's election from a book.

    Its limit is the ballots expected and a fifth more, and its bits follow from the limit, as the operations manual
    has it. It is of version 2 only where more than 16 contests or 32 choices need that. The salt is drawn once: a
    file that is there is never overwritten, for a store may stand on it.

    The election has numbers alone. Its salt is no secret.
    """
    made_of, problems, data = good_book(book)
    tell(problems)
    if salt and SALT.fullmatch(salt) is None:
        raise click.BadParameter(sentence(problem("bad-salt", Place(), salt=salt)), param_hint="--salt")
    ballots = expected or _expected(made_of, precinct)
    limit = limit_of(-(-ballots // int(parts)))
    if limit > MOST_BALLOTS:
        raise Refused([problem("expected-too-many", Place(book), expected=ballots, limit=limit)], FOUND)
    one = election_of(made_of, limit, bits_of(limit), salt or draw_salt())
    text = election_text(one).encode()
    write_new(file, text, PUBLIC)
    say(f"election {file}: version {one.version}, limit {one.limit}, bits {one.bits}")
    say(
        f"each of {parts} media has {medium_size(one):,} bytes"
        if parts != "1"
        else f"a medium has {medium_size(one):,} bytes"
    )
    say(f"salt {one.salt}")
    say(f"SHA-256 of the election {sha256(text)}")
    say(f"SHA-256 of the book     {sha256(data)}")


def _expected(book: Book, precinct: str) -> int:
    """How many voters the book expects in a precinct, or in that which expects most. Raises `Refused`."""
    _precinct(book, precinct)
    sums: dict[str, int] = {}
    for one, _, expected in book.expected():
        sums[one.id] = sums.get(one.id, 0) + expected
    found = sums.get(precinct, 0) if precinct else max(sums.values(), default=0)
    if not found:
        raise Refused([problem("expected-missing", Place(key=precinct))], FOUND)
    return found


def _precinct(book: Book, precinct: str) -> None:
    """The book has this precinct, where one is named. Raises `Refused`."""
    if precinct and precinct not in [it.id for it in book.precincts]:
        known = ", ".join(it.id for it in book.precincts) or "none"
        raise Refused([problem("precinct-unknown", Place(), id=precinct, known=known)], FOUND)


@election.command("check")
@click.argument("book", type=FILE, required=False)
@click.option("--election", "file", type=FILE, help="An election's file: alone, or beside its book.")
@click.option("--medium", type=FILE, help="A medium of the election: whether an audit accepts it.")
@click.option("--few", type=click.IntRange(0), default=FEW, show_default=True, help="Fewer voters of a style are told.")
@click.pass_obj
def check(told: Told, book: str | None, file: str | None, medium: str | None, few: int) -> None:
    """Tells everything that is wrong with a book, an election's file, or both, at once.

    With a book and an election: whether contests, allowed marks, styles and version are the book's; limit, bits and
    salt are the file's alone. With an election alone: which rule a file breaks that the program answers with bad
    election, and where. With a medium: whether an audit accepts the pair.

    The status is 0 where nothing was found, and 1 for an error or a warning. A note changes nothing. An audit says how
    many ballots a medium holds, and nothing of their votes.
    """
    if not book and not file:
        raise click.UsageError("name a book, or --election FILE, or both")
    if medium and not file:
        raise click.UsageError("--medium needs --election FILE")
    problems: list[Problem] = []
    made_of = None
    if book:
        made_of, _, problems, _ = check_book_file(book, few)
    one = None
    if file:
        one, more = read_election(read_election_file(file), file)
        problems = problems + more
        if one and made_of and not any(it.weight == ERROR for it in problems):
            problems += differences(election_of(made_of, one.limit, one.bits, one.salt), one, Place(file))
    said = ""
    if medium and file and one:
        said, more = audit(find_program(told.path, told.named_sum), medium, file)
        problems = problems + more
    tell(problems)
    say(f"checked: {counted(problems) or 'nothing found'}" + (f"; the audit says {said}" if said else ""))
    if is_found(problems):
        raise Refused([], FOUND)


@election.command("sheet")
@click.argument("book", type=FILE)
@click.option("--election", "file", required=True, type=FILE, help="The election's file.")
@click.option("--out", required=True, type=FILE, help="The page that is written; a file of this name is left alone.")
@click.option("--precinct", default="", help="Of which precinct the page is; else it has all of them.")
def sheet(book: str, file: str, out: str, precinct: str) -> None:
    """Writes the page that officials sign: who is contest 2, choice 9; the styles; the digests; the salt.

    The page is HTML, to be printed from a browser on A4 or Letter. It fetches nothing, and has nothing but what the
    book and the election have.
    """
    made_of, problems, data = good_book(book)
    tell(problems)
    _precinct(made_of, precinct)
    one, text = good_election(file)
    wrong = differences(election_of(made_of, one.limit, one.bits, one.salt), one, Place(file))
    if wrong:
        raise Refused(wrong, FOUND)
    page = pages.sheet(made_of, one, sha256(data), sha256(text), precinct)
    write_new(out, page.encode(), PUBLIC)
    say(f"page {out}")


@election.command("names")
@click.argument("book", type=FILE)
@click.argument("words", nargs=-1, required=True, metavar="CONTEST [CHOICE]..")
def names(book: str, words: tuple[str, ...]) -> None:
    """Says who a contest and its choices are. Each word is a number, an id or a name.

    So it leads from numbers to names (BOOK 2 9) and back (BOOK mayor "Ana García"). It reads the book
    alone, and no vote.
    """
    for line in names_of(good_book(book)[0], words):
        say(line)


@election.command("line")
@click.argument("book", type=FILE)
@click.argument("line", required=False)
@click.option("--number", default="", help="The ballot's number, for the way back.")
@click.option("--style", default="", help="Its style: a number, an id or a name.")
@click.option(
    "--mark", "marks", multiple=True, metavar="CONTEST=CHOICE,..", help="What it marks; once for each contest."
)
def line(book: str, line: str | None, number: str, style: str, marks: tuple[str, ...]) -> None:
    """Says a record line of an export in names; or, from --number, --style and --mark, says its line.

    What it writes is one ballot: a vote. Nothing is kept.
    """
    if bool(line) == bool(number or style or marks) or bool(number) != bool(style):
        raise click.UsageError("give a line, or else --number and --style and what is marked")
    made_of = good_book(book)[0]
    for told in line_words(made_of, line, Place()) if line else [line_of(made_of, number, style, marks)]:
        say(told)
