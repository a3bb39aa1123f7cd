"""The pure layer: sizes, JSON, places of TOML, tables, names, labels; by tables and by properties."""

import datetime
import json
import tomllib
import unicodedata
from pathlib import Path
from typing import Any

import pytest
import tomli_w
from hypothesis import given, settings
from hypothesis import strategies as st
from samples import CHOICES, CONTESTS, GOOD_BOOK, GOOD_ELECTION, STYLES

from ballot_office.pure import json_text
from ballot_office.pure.book import Book, Choice, Contest, Precinct, Style, election_of, table_of
from ballot_office.pure.book_checks import book_problems
from ballot_office.pure.book_reader import Places, book_of, read_book
from ballot_office.pure.election import (
    Election,
    bits_of,
    differences,
    election_text,
    limit_of,
    medium_size,
    read_election,
)
from ballot_office.pure.names import line_of, line_problems, line_words, names_of
from ballot_office.pure.numbers import check_digits, label, list_text, read_list, typed
from ballot_office.pure.problems import Place, Refused, sentence, shown
from ballot_office.pure.tables import book_from_tables
from ballot_office.pure.texts import folded, look, mixed_word, text_problems
from ballot_office.pure.toml_places import Path as Path_
from ballot_office.pure.toml_places import places_of
from ballot_office.store.books import book_data

DATA = Path(__file__).resolve().parent / "data"
FRONT: dict[str, Any] = {"title": "T", "jurisdiction": "J", "date": datetime.date(2026, 11, 3), "languages": ["en"]}
# Ballots expected, limit and bits as the operations manual has them, and the bytes of a medium of 3 contests, of 16,
# and of 24 in version 2.
SIZES = (
    (500, 600, 10, 68_274, 237_170, 652_914),
    (2_000, 2_400, 12, 272_898, 948_482, 2_611_458),
    (20_000, 24_000, 16, 3_760_578, 13_072_322, 35_993_538),
    (25_000, 30_000, 16, 4_012_578, 13_948_322, None),
)


def good_book() -> Book:
    """The good book."""
    book, _, problems = read_book(GOOD_BOOK.encode(), "b.toml")
    assert book and not problems
    return book


@pytest.mark.parametrize("expected, limit, bits, three, sixteen, two", SIZES)
def test_sizes(expected: int, limit: int, bits: int, three: int, sixteen: int, two: int | None) -> None:
    """Limit, bits and sizes are those of the operations manual."""
    assert (limit_of(expected), bits_of(limit)) == (limit, bits)
    for version, contests, size in ((1, 3, three), (1, 16, sixteen), (2, 24, two)):
        one = Election(version, ((2, 1),) * contests, ((1,),), limit, bits, "0" * 16)
        assert size in (None, medium_size(one))


@given(st.integers(1, 32_768))
def test_bits_are_the_least(limit: int) -> None:
    """The homes are at least one and a half times the limit, and half as many are not, up to 16 bits."""
    bits = bits_of(limit)
    assert bits == 16 or 2**bits * 2 >= 3 * limit
    assert bits == 0 or 2 ** (bits - 1) * 2 < 3 * limit


SIZED = st.integers(1, 64).flatmap(lambda most: st.tuples(st.just(most), st.integers(1, most)))
ELECTIONS = st.builds(
    lambda contests, styles, rest: (contests, styles, rest),
    st.lists(
        st.integers(1, 64).flatmap(lambda most: st.tuples(st.just(most), st.integers(1, most))), min_size=1, max_size=24
    ),
    st.lists(st.sets(st.integers(0, 23), min_size=1, max_size=24), min_size=1, max_size=20),
    st.tuples(st.integers(1, 32_768), st.integers(0, 16), st.integers(0, 2**64 - 1)),
)


@given(ELECTIONS)
def test_an_election_is_read_back(drawn: Any) -> None:
    """The text of an election describes it, and a mistake in it is found beside the book."""
    contests, styles, (limit, bits, salt) = drawn
    numbers = tuple(tuple(sorted({it % len(contests) + 1 for it in style})) for style in styles)
    version = 1 if len(contests) <= 16 and max(it[0] for it in contests) <= 32 else 2
    one = Election(version, tuple(contests), numbers, limit, bits, f"{salt:016x}")
    assert read_election(election_text(one).encode(), "e") == (one, [])
    assert json.loads(election_text(one))["limit"] == limit
    other = Election(version, one.contests, one.styles, 1, 0, "f" * 16)
    assert not differences(one, other, Place())


JSON = st.recursive(
    st.none() | st.booleans() | st.floats(allow_nan=False, allow_infinity=False) | st.integers() | st.text(),
    lambda inner: st.lists(inner) | st.dictionaries(st.text(), inner),
)


def plain(value: json_text.Value) -> Any:
    """A JSON value without its places."""
    held = value.held
    if isinstance(held, json_text.Number):
        return json.loads(held.text)
    if isinstance(held, dict):
        return {key: plain(it) for key, it in held.items()}
    return [plain(it) for it in held] if isinstance(held, list) else held


@given(JSON, st.booleans())
def test_json_is_read(value: Any, is_ascii: bool) -> None:
    """What Python's writer writes is read as what it was."""
    text = json.dumps(value, ensure_ascii=is_ascii)
    try:
        text.encode()
    except UnicodeEncodeError:
        return
    assert plain(json_text.read_json(text)) == value


@given(st.text(alphabet='{}[]":,\\/ \n\t0123456789.eE+-tfnrulasN\x00\u00e9d8', max_size=60))
def test_json_never_takes_more_than_python(text: str) -> None:
    """A text that is taken is one that Python's reader takes too, as the same value."""
    try:
        value = json_text.read_json(text)
    except json_text.NoJson as error:
        assert 0 <= error.at <= len(text)
        return
    assert plain(value) == json.loads(text)


NAMES = st.text(st.characters(blacklist_categories=("Cc", "Cs", "Cn", "Zl", "Zp")), min_size=1, max_size=30).map(
    lambda text: unicodedata.normalize("NFC", text).strip()
)
CLEAN = NAMES.filter(lambda text: text and not text_problems(text, Place()))


@st.composite
def books(draw: st.DrawFn) -> Book:
    """Any book."""
    names = draw(st.lists(CLEAN, min_size=12, max_size=12))
    contests = []
    for at in range(draw(st.integers(1, 4))):
        choices = tuple(Choice(f"c{it}", names[it], draw(st.just("") | CLEAN), draw(st.booleans())) for it in range(3))
        measure = draw(st.booleans())
        needs = ("at least 2/3", "ballots") if measure else ("", "")
        kind = "measure" if measure else "candidates"
        contests.append(
            Contest(f"x{at}", names[at], kind, draw(st.integers(1, 3)), 0 if measure else 1, *needs, choices)
        )
    ids = [it.id for it in contests]
    styles = tuple(Style(f"s{at}", names[at], tuple(draw(st.permutations(ids)))) for at in range(2))
    precincts = tuple(Precinct(f"p{at}", names[at], {"s1": draw(st.integers(0, 99))}) for at in range(2))
    return Book(names[0], names[1], draw(st.dates()), ("en",), precincts, tuple(contests), styles)


@settings(max_examples=60, deadline=None)
@given(books())
def test_a_book_is_read_back(book: Book) -> None:
    """A book's file describes it, and each part of it has a place in its own line."""
    data = book_data(book)
    found, places, problems = read_book(data, "b")
    assert not problems and found is not None
    assert table_of(found) == table_of(book)
    lines = data.decode().split("\n")
    known: list[Path_] = [
        ("title",),
        ("contests", 0, "id"),
        ("contests", 0, "choices", 2, "name"),
        ("styles", 1, "name"),
    ]
    for path in known:
        place = places.of(path)
        assert lines[place.line - 1].startswith(str(path[-1]), place.column - 1), (path, place)
    book_problems(found, places)
    assert read_election(election_text(election_of(found, 9, 3, "0" * 16)).encode(), "e")[1] == []


TOML = st.dictionaries(
    st.text(min_size=1, max_size=5),
    st.recursive(
        st.integers(-9, 9) | st.text(max_size=8) | st.booleans(),
        lambda inner: st.lists(inner, max_size=3) | st.dictionaries(st.text(min_size=1, max_size=4), inner, max_size=3),
        max_leaves=8,
    ),
    max_size=5,
)


def paths(value: Any, path: tuple[str | int, ...] = ()) -> set[tuple[str | int, ...]]:
    """The paths of all parts of a value."""
    parts = value.items() if isinstance(value, dict) else enumerate(value) if isinstance(value, list) else ()
    return {path}.union(*(paths(it, (*path, key)) for key, it in parts)) - {()}


@settings(deadline=None)
@given(TOML, st.booleans())
def test_each_part_of_a_toml_text_has_a_place(table: dict[str, Any], several: bool) -> None:
    """Whatever a TOML writer writes, each key and element has a place, and no other path has one."""
    text = tomli_w.dumps(table, multiline_strings=several)
    assert set(places_of(text)) == paths(tomllib.loads(text)), text


def test_strings_that_look_like_structure() -> None:
    """What stands in strings and comments is no structure."""
    text = 'a = """\n[x]\nb = 1\n"""  # [[y]]\nc = \'[z]\'\n"d e".f = [ # [\n  "]", \'\'\'}\n\'\'\'\n]\n'
    text += "[[t]]\ng = 1\n[[t]]\n[t.u]\nh = 2\n"
    found = {path: text.count("\n", 0, at) + 1 for path, at in places_of(text).items()}
    assert found[("a",)] == 1 and found[("c",)] == 5 and found[("d e", "f")] == 6
    assert found[("t", 0, "g")] == 11 and found[("t", 1, "u", "h")] == 14
    assert ("x",) not in found and ("y",) not in found


def made(contests: bytes, choices: bytes, styles: bytes | None) -> tuple[Book | None, list[str]]:
    """The book of tables, and the sentences of its problems."""
    named = ("styles.csv", styles) if styles is not None else None
    book, _, problems = book_from_tables(FRONT, ("contests.csv", contests), ("choices.csv", choices), named)
    return book, [sentence(it) for it in problems]


def semicolons(text: str) -> str:
    """The table by semicolons, each cell in quotation marks, its columns the other way round."""
    rows = [line.split(",")[::-1] for line in text.splitlines()]
    return "".join(";".join(f'"{it}"' for it in row) + "\n" for row in rows)


@pytest.mark.parametrize("mark", [b"", b"\xef\xbb\xbf"])
@pytest.mark.parametrize("end", ["\n", "\r\n"])
@pytest.mark.parametrize("front", ["", "sep=;\n"])
def test_tables_are_read_as_saved(mark: bytes, end: str, front: str) -> None:
    """With and without byte order mark, by comma and by semicolon, quoted, CR LF, in any order: one book."""
    plainly, problems = made(CONTESTS.encode(), CHOICES.encode(), STYLES.encode())
    assert plainly and not problems
    assert plainly.contests[1].threshold == "more than 1/2" and plainly.contests[0].choices[2].write_in
    tables = [(front + semicolons(text)).replace("\n", end).encode() for text in (CONTESTS, CHOICES, STYLES)]
    assert made(*(mark + table for table in tables)) == (plainly, [])


def test_two_spreadsheets_of_libreoffice() -> None:
    """Files that LibreOffice saved, without a table of styles."""
    book, problems = made((DATA / "contests.csv").read_bytes(), (DATA / "choices.csv").read_bytes(), None)
    assert book and not problems
    assert [it.title for it in book.contests] == [
        "Mayor", "City council, four years", "Bond for the library \u201cOld Mill\u201d"
    ]  # fmt: skip
    assert [it.name for it in book.contests[0].choices] == ["Ana García-Núñez", 'Lee, Bo "Bob"', "Write-in"]
    assert book.contests[0].choices[1].party == "Farmers; Workers"
    assert [len(it.choices) for it in book.contests] == [3, 5, 2]
    assert book.styles == (Style("all", "Every contest", ("mayor", "council", "library")),)


@pytest.mark.parametrize("data", ["Müller".encode("latin-1"), "Mayor".encode("utf-16")])
def test_other_encodings(data: bytes) -> None:
    """A table, a book and an election that are no UTF-8."""
    _, told = made(data, CHOICES.encode(), None)
    assert any("is no UTF-8" in it and it.startswith("contests.csv, line 1") for it in told)
    assert "is no UTF-8" in sentence(read_book(data, "b.toml")[2][0])
    assert "is no UTF-8" in sentence(read_election(data, "e.json")[1][0])
    assert "more than 1,048,576 bytes" in sentence(read_election(b" " * 1_048_577, "e.json")[1][0])
    assert read_election(b" " * (1_048_576 - len(GOOD_ELECTION)) + GOOD_ELECTION.encode(), "e.json")[1] == []


def test_deep_toml() -> None:
    """A book whose values stand too deep is told, and ends nothing."""
    for text in ("x = " + "[" * 100_000, "x = " + "[" * 3_000 + "]" * 3_000):
        assert read_book(text.encode(), "b.toml")[2][0].name == "no-toml"


def test_all_mistakes_at_once() -> None:
    """Mistakes in three tables are told together."""
    contests = CONTESTS.replace("mayor,Mayor,,1", "mayor,Mayor,,9").replace("more than 1/2", "half")
    choices = CHOICES.replace("bond,no,No,,", "bnd,no,No,,")
    styles = STYLES.replace("1100", "many")
    told = "\n".join(made(contests.encode(), choices.encode(), styles.encode())[1])
    assert all(word in told for word in ("half", "bnd", "many"))
    text = GOOD_BOOK.replace('"lee"', '"2"').replace("Bo Lee", "ANA GARCÍA").replace("1100", "3")
    book, places, problems = read_book(text.encode(), "b.toml")
    assert book
    found = [it.name for it in problems + book_problems(book, places)]
    assert found == ["bad-id", "name-but-for-case", "style-of-few"]


@pytest.mark.parametrize(
    "one, other, alike",
    [
        ("Anna", "\u0410nna", True),
        ("AI", "Al", True),
        ("Anna", "Anne", False),
        ("Bo", "B\u043e", True),
        ("Anna", "An\u200dna", True),
        ("Li", "Lu", False),
    ],
)
def test_looks(one: str, other: str, alike: bool) -> None:
    """Names that look alike, and others."""
    assert (look(one) == look(other)) == alike


@pytest.mark.parametrize(
    "name", ["Anna", "Нина Чехова", "山田 太郎", "محمد علي", "José Núñez", "O'Brien-Smith 3.", "Ελένη"]
)
def test_names_of_one_alphabet_are_not_told(name: str) -> None:
    """No warning for names as they are."""
    assert mixed_word(name) == "" and not text_problems(name, Place())
    assert folded(f" {name.upper()}\u00a0") == folded(name)


@given(st.integers(1, 2**64 - 1))
def test_a_label_is_typed_back(number: int) -> None:
    """What a label says is the number, and no slip of one digit or of two neighbours is taken."""
    text = label(number)
    assert typed(text) == typed(text.replace(" ", "")) == number
    assert (number * 100 + int(check_digits(number))) % 97 == 1
    digits = list(text.replace(" ", ""))
    for at, digit in enumerate(digits):
        if digit != "-":
            slip = [*digits]
            slip[at] = str((int(digit) + 1 + number % 9) % 10)
            with pytest.raises(Refused):
                typed("".join(slip))
        if at and "-" not in (digit, digits[at - 1]) and digits[at - 1] != digit:
            slip = [*digits]
            slip[at - 1], slip[at] = digit, digits[at - 1]
            with pytest.raises(Refused):
                typed("".join(slip))


@given(st.lists(st.integers(1, 2**64 - 1), min_size=1, unique=True))
def test_a_list_is_read_back(numbers: list[int]) -> None:
    """A list's file has its numbers."""
    assert read_list(list_text(numbers).encode(), "n") == (numbers, [])


BAD_LINES: tuple[str, ...] = (
    "1 1",
    "1 1 ",
    " 1 1 -/-",
    "1  1 -/-",
    "01 1 -/-",
    "1 01 -/-",
    "1 0 -/-",
    "1 256 -/-",
    "1 1 -/-\n",
    "1 1 1,1/-",
)
BAD_LINES += (
    "1 1 /-",
    "1 1 1,/-",
    "18446744073709551616 1 -/-",
    "1 1 33/-",
    "x 1 -/-",
    "1 1 -/-\r",
    "1 1 -" + "/-" * 16,
)


@pytest.mark.parametrize("line", BAD_LINES)
def test_lines_outside_the_grammar(line: str) -> None:
    """Lines that are malformed."""
    assert [it.name for it in line_problems(good_book(), line, Place())[1]] == ["line-malformed"]


@given(st.integers(1, 2**64 - 1), st.sets(st.integers(1, 3)), st.sets(st.integers(1, 2)), st.booleans())
def test_a_line_in_names_and_back(number: int, mayor: set[int], bond: set[int], by_name: bool) -> None:
    """From a record line to names, and from these to the line."""
    book = good_book()
    groups = [",".join(map(str, sorted(it))) or "-" for it in (mayor, bond)]
    line = f"{number} 1 {'/'.join(groups)}"
    words = line_words(book, line, Place())
    assert words[0] == f"ballot {number}" and words[1] == "style 1: North [north]"
    assert ("overvote" in words[2]) == (len(mayor) > 1)
    said = []
    for contest, marks in zip(book.contests, (mayor, bond)):
        names = [contest.choices[it - 1].name if by_name else contest.choices[it - 1].id for it in marks]
        said += [f"{contest.title if by_name else contest.id}={','.join(names)}"] if marks else []
    assert line_of(book, str(number), "North", said) == line


def test_names() -> None:
    """From numbers to names and back."""
    assert names_of(good_book(), ["1", "1"]) == ["contest 1: Mayor [mayor]", "choice 1: Ana García (Green) [garcia]"]
    assert names_of(good_book(), ["mayor", "ANA GARCÍA"]) == names_of(good_book(), ["1", "1"])
    assert names_of(good_book(), ["2"])[1:] == ["choice 1: Yes [yes]", "choice 2: No [no]"]


def test_what_a_terminal_would_obey_is_spelled_out() -> None:
    """Control characters and turning ones are not written as they are, and long texts are cut."""
    assert shown("a\x1b[31m\u202eb\n") == "a\\x1b[31m\\u202eb\\n"
    assert shown("\u0646\u200c\u0645") == "\u0646\u200c\u0645"
    assert shown("x" * 300) == "x" * 237 + "..."


def test_places_without_a_known_part() -> None:
    """A part whose place is not known stands where its file does."""
    problems = book_of({"contests": [{}]}, Places("b.toml", {}))[1]
    assert {it.place.file for it in problems} == {"b.toml"}
