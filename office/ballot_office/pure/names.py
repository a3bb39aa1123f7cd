"""From the numbers of an export to the names of a book, and back."""

import re
from collections.abc import Sequence

from ballot_office.pure.book import Book, Choice, Contest
from ballot_office.pure.election import MOST_CHOICES, MOST_CONTESTS, version_of
from ballot_office.pure.problems import Place, Problem, Refused, problem
from ballot_office.pure.texts import folded

CHECK_FOUND = 1
MOST_NUMBER = 2**64 - 1
DECIMAL = r"(?:0|[1-9][0-9]{0,19})"
LINE = re.compile(rf"({DECIMAL}) ({DECIMAL}) (\S+)")
GROUP = re.compile(rf"-|{DECIMAL}(?:,{DECIMAL})*")


def refuse(name: str, /, **facts: object) -> Refused:
    """A refusal for one problem with a word that was typed."""
    return Refused([problem(name, Place(), **facts)], CHECK_FOUND)


def _one_of(word: str, names: Sequence[tuple[str, str]], name: str, /, **facts: object) -> int:
    """The number of the one that a word means: by its number, its id, or its name."""
    if re.fullmatch(r"[0-9]{1,9}", word):
        if 1 <= int(word) <= len(names):
            return int(word)
        raise refuse(name, found=word, count=len(names), **facts)
    by_id = [number for number, (one, _) in enumerate(names, 1) if one == word]
    by_name = [number for number, (_, one) in enumerate(names, 1) if folded(one) == folded(word)]
    meant = by_id or by_name
    if len(meant) > 1:
        raise refuse("not-one-name", found=word, several=", ".join(map(str, meant)))
    if not meant:
        raise refuse(name, found=word, count=len(names), **facts)
    return meant[0]


def contest_number(book: Book, word: str) -> int:
    """The contest that a word means. Raises `Refused`."""
    return _one_of(word, [(it.id, it.title) for it in book.contests], "no-such-contest")


def choice_number(book: Book, contest: int, word: str) -> int:
    """The choice of a contest that a word means. Raises `Refused`."""
    one = book.contests[contest - 1]
    return _one_of(word, [(it.id, it.name) for it in one.choices], "no-such-choice", contest=one.title)


def style_number(book: Book, word: str) -> int:
    """The style that a word means. Raises `Refused`."""
    return _one_of(word, [(it.id, it.name) for it in book.styles], "no-such-style")


def choice_words(choice: Choice) -> str:
    """A choice as people read it."""
    party = f" ({choice.party})" if choice.party else ""
    return f"{choice.name}{party}" + (" [write-in]" if choice.write_in else "")


def names_of(book: Book, words: Sequence[str]) -> list[str]:
    """The lines that say who a contest is, or its choices, in numbers and names. Raises `Refused`."""
    at = contest_number(book, words[0])
    contest = book.contests[at - 1]
    lines = [f"contest {at}: {contest.title} [{contest.id}]"]
    numbers = [choice_number(book, at, word) for word in words[1:]] or range(1, len(contest.choices) + 1)
    for number in numbers:
        choice = contest.choices[number - 1]
        lines.append(f"choice {number}: {choice_words(choice)} [{choice.id}]")
    return lines


def line_problems(book: Book, line: str, place: Place) -> tuple[list[list[int]], list[Problem]]:
    """The marks of each contest on a record line, or what is wrong with it under the book."""
    found = LINE.fullmatch(line)
    groups = found[3].split("/") if found else []
    version = version_of(len(book.contests), max(len(it.choices) for it in book.contests))
    marks = [[] if it == "-" else [int(one) for one in it.split(",")] for it in groups if GROUP.fullmatch(it)]
    ascends = all(list(it) == sorted(set(it)) for it in marks)
    in_range = all(1 <= one <= MOST_CHOICES[version] for it in marks for one in it)
    if not found or len(marks) != len(groups) or not ascends or not in_range or len(line) > 8192:
        return [], [problem("line-malformed", place, line=line)]
    if not 1 <= int(found[1]) <= MOST_NUMBER or len(groups) > MOST_CONTESTS[version] or not 1 <= int(found[2]) <= 255:
        return [], [problem("line-malformed", place, line=line)]
    if len(groups) != len(book.contests):
        return [], [problem("line-groups", place, found=len(groups), count=len(book.contests))]
    if int(found[2]) > len(book.styles):
        return [], [problem("no-such-style", place, found=found[2], count=len(book.styles))]
    return marks, _mark_problems(book, int(found[2]), marks, place)


def _mark_problems(book: Book, style: int, marks: list[list[int]], place: Place) -> list[Problem]:
    """Marks of contests that the style does not have, or beyond a contest's choices."""
    on_style = book.numbers_on(book.styles[style - 1])
    problems = []
    for number, (contest, chosen) in enumerate(zip(book.contests, marks), 1):
        if chosen and number not in on_style:
            problems.append(problem("line-not-on-style", place, contest=number, style=style))
        for choice in chosen:
            if choice > len(contest.choices):
                problems.append(
                    problem("line-choice", place, contest=number, count=len(contest.choices), choice=choice)
                )
    return problems


def line_words(book: Book, line: str, place: Place) -> list[str]:
    """A record line in names. Raises `Refused`."""
    marks, problems = line_problems(book, line, place)
    if problems:
        raise Refused(problems, CHECK_FOUND)
    number, style = line.split(" ")[:2]
    on = book.styles[int(style) - 1]
    lines = [f"ballot {number}", f"style {style}: {on.name} [{on.id}]"]
    for at in book.numbers_on(on):
        lines.append(_contest_words(at, book.contests[at - 1], marks[at - 1]))
    return lines


def _contest_words(number: int, contest: Contest, marks: list[int]) -> str:
    """What a ballot says of one contest."""
    names = "; ".join(f"{mark} {choice_words(contest.choices[mark - 1])}" for mark in marks) or "no mark"
    over = f" (overvote: {contest.allowed} allowed)" if len(marks) > contest.allowed else ""
    return f"contest {number}: {contest.title}: {names}{over}"


def line_of(book: Book, number: str, style: str, said: Sequence[str]) -> str:
    """The record line of a ballot that is said in names: each contest as `contest=choice,choice`. Raises `Refused`."""
    if not re.fullmatch(DECIMAL, number) or not 1 <= int(number) <= MOST_NUMBER:
        raise refuse("bad-number", found=number)
    at = style_number(book, style)
    marks: dict[int, list[int]] = {}
    for one in said:
        contest, equals, choices = one.partition("=")
        if not equals or not choices:
            raise refuse("mark-malformed", found=one)
        where = contest_number(book, contest)
        if where in marks:
            raise refuse("mark-twice", contest=contest)
        marks[where] = sorted({choice_number(book, where, it.strip()) for it in choices.split(",")})
    groups = [",".join(map(str, marks.get(it, []))) or "-" for it in range(1, len(book.contests) + 1)]
    line = f"{number} {at} {'/'.join(groups)}"
    problems = line_problems(book, line, Place())[1]
    if problems:
        raise Refused(problems, CHECK_FOUND)
    return line
