"""What a book says that the program cannot hold, or that people should look at once more."""

from collections.abc import Callable

from ballot_office.pure.book import CANDIDATES, MEASURE, Book, Choice, Contest
from ballot_office.pure.book_reader import Places, key_words
from ballot_office.pure.election import MOST_CHOICES, MOST_CONTESTS, MOST_STYLES
from ballot_office.pure.problems import Problem, problem
from ballot_office.pure.texts import folded, look, mixed_word
from ballot_office.pure.toml_places import Path

FEW = 10
Say = Callable[..., None]
Named = list[tuple[str, Path]]


def book_problems(book: Book, places: Places, few: int = FEW) -> list[Problem]:
    """All errors, warnings and notes of a book that was read, also of one in which the reader met problems."""
    found: list[Problem] = []

    def say(name: str, path: Path, /, **facts: object) -> None:
        found.append(problem(name, places.of(path), **facts))

    _sizes(book, say)
    for index, contest in enumerate(book.contests):
        _contest(contest, ("contests", index), say)
    _names(book, say)
    _styles(book, say)
    _few_voters(book, few, say)
    return found


def _sizes(book: Book, say: Say) -> None:
    """The numbers of contests and styles."""
    count = len(book.contests)
    if not 1 <= count <= MOST_CONTESTS[2]:
        say("contest-count", ("contests",), count=count, one=MOST_CONTESTS[1], two=MOST_CONTESTS[2])
    elif count > MOST_CONTESTS[1]:
        say("contests-need-two", ("contests",), count=count, one=MOST_CONTESTS[1], two=MOST_CONTESTS[2])
    if not 1 <= len(book.styles) <= MOST_STYLES:
        say("style-count", ("styles",), count=len(book.styles), most=MOST_STYLES)


def _contest(contest: Contest, path: Path, say: Say) -> None:
    """The choices, allowed votes and seats of one contest."""
    count, one, two = len(contest.choices), MOST_CHOICES[1], MOST_CHOICES[2]
    if not 1 <= count <= two:
        say("choice-count", (*path, "choices"), count=count, one=one, two=two)
    elif count > one:
        say("choices-need-two", (*path, "choices"), count=count, one=one, two=two)
    if contest.allowed > max(count, 1):
        say("allowed-above-choices", (*path, "allowed"), allowed=contest.allowed, choices=count)
    if contest.kind == CANDIDATES and contest.seats > max(count, 1):
        say("seats-above-choices", (*path, "seats"), seats=contest.seats, choices=count)
    if contest.kind == MEASURE and count < 2:
        say("measure-of-one", (*path, "choices"))


def _names(book: Book, say: Say) -> None:
    """Names that a reader takes for each other."""
    kinds: list[Named] = [
        [(it.title, ("contests", index, "title")) for index, it in enumerate(book.contests)],
        [(it.name, ("styles", index, "name")) for index, it in enumerate(book.styles)],
        [(it.name, ("precincts", index, "name")) for index, it in enumerate(book.precincts)],
    ]
    for index, contest in enumerate(book.contests):
        kinds.append([(it.name, ("contests", index, "choices", at, "name")) for at, it in _candidates(contest)])
    for named in kinds:
        _alike(named, say)
    for name, path in [one for named in kinds for one in named]:
        word = mixed_word(name)
        if word:
            say("letters-mixed", path, word=word)


def _candidates(contest: Contest) -> list[tuple[int, Choice]]:
    """The choices that have names of their own: not the write-in lines, which all may be called so."""
    return [(index, it) for index, it in enumerate(contest.choices) if not it.write_in]


def _alike(named: Named, say: Say) -> None:
    """Names of one kind that are equal, or but for white space and case, or to the eye."""
    exact: dict[str, Path] = {}
    by_fold: dict[str, tuple[str, Path]] = {}
    by_look: dict[str, tuple[str, Path]] = {}
    for name, path in [one for one in named if one[0]]:
        fold, shape = folded(name), look(name)
        if name in exact:
            say("name-twice", path, name=name, first=key_words(exact[name]))
        elif fold in by_fold:
            say("name-but-for-case", path, name=name, other=by_fold[fold][0], first=key_words(by_fold[fold][1]))
        elif shape in by_look:
            say("name-looks-like", path, name=name, other=by_look[shape][0], first=key_words(by_look[shape][1]))
        exact.setdefault(name, path)
        by_fold.setdefault(fold, (name, path))
        by_look.setdefault(shape, (name, path))


def _styles(book: Book, say: Say) -> None:
    """Contests on no style, and equal styles."""
    used = {name for style in book.styles for name in style.contests}
    for index, contest in enumerate(book.contests):
        if contest.id not in used and book.styles:
            say("contest-on-no-style", ("contests", index, "id"), id=contest.id)
    seen: dict[frozenset[str], str] = {}
    for index, style in enumerate(book.styles):
        contests = frozenset(style.contests)
        if contests in seen:
            say("styles-equal", ("styles", index, "contests"), id=style.id, other=seen[contests])
        seen.setdefault(contests, style.id)


def _few_voters(book: Book, few: int, say: Say) -> None:
    """Styles of so few voters that a ballot of the style tells whose it is."""
    numbers = {it.id: index for index, it in enumerate(book.precincts)}
    for precinct, style, expected in book.expected():
        if 0 < expected < few:
            path = ("precincts", numbers[precinct.id], "expected", style.id)
            say("style-of-few", path, style=style.id, precinct=precinct.id, expected=expected, few=few)
