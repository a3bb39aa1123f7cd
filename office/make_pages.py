#!/usr/bin/python3
"""Writes the manual pages of `ballot-office` into office/man: one for the program, and one for each command.

    office/make_pages.py            writes them
    office/make_pages.py --check    says which differ from what would be written; status 1 if any does

What a page says of a command is the command's own help; the tables of patterns and of the keys of a book stand here.
"""
import re
import sys
from pathlib import Path

OFFICE = Path(__file__).resolve().parent
sys.dont_write_bytecode = True
sys.path[:0] = [str(OFFICE)]

import click  # noqa: E402

from ballot_office import VERSION  # noqa: E402
from ballot_office.people.main import NAME, office  # noqa: E402
from ballot_office.pure.patterns import PATTERNS  # noqa: E402

DATE = "2026-12-02"
STATUSES = (
    ("0", "all was done, and nothing was found"),
    ("1", "a check found something, or what was given does not fit"),
    ("2", "the words are no command"),
    ("3", "a file or a program failed"),
)
BOOK = """\
# a comment
title = "General election"
jurisdiction = "Town of Ash"
date = 2026-11-03
languages = ["en", "es"]

[[contests]]
id = "mayor"
title = "Mayor"
kind = "candidates"      # or "measure"
allowed = 1              # votes allowed
seats = 1                # seats to fill
choices = [
    { id = "garcia", name = "Ana Garc\u00eda", party = "Green" },
    { id = "lee", name = "Bo Lee" },
    { id = "other", name = "Write-in", write_in = true },
]

[[contests]]
id = "bond"
title = "Library bond"
kind = "measure"
threshold = "at least 60%"   # what the first choice needs
threshold_of = "votes"       # or "ballots"
choices = [{ id = "yes", name = "Yes" }, { id = "no", name = "No" }]

[[styles]]
id = "north"
name = "North, Democratic primary"
contests = ["mayor", "bond"]

[[precincts]]
id = "p1"
name = "First precinct"
expected = { north = 900 }   # voters by style
"""
KEYS = (
    ("title, jurisdiction, date", "what the election is called, whose it is, and its day; all are needed."),
    ("languages", "the codes of the sheets' languages, the book's own first; en where there are none."),
    ("contests", "in the order of the sheet, which gives them their numbers from 1. An id is a letter and then up to "
     "31 letters, digits, points, - or _. Candidates have allowed (votes) and seats (1 where not told); a measure "
     "has a threshold, as more than 1/2 or at least 60%, of votes or ballots, and one vote where not told."),
    ("choices", "in the order of the sheet, each with an id and a name in any language (Unicode NFC, at most 200 "
     "characters), and as needed a party and write_in."),
    ("styles", "which contests are on a sheet, by their ids in any order."),
    ("precincts", "as needed; one book serves many. expected has the voters expected of each style."),
)  # fmt: skip


def escaped(text: str) -> str:
    """The text as a page may have it."""
    safe = text.replace("\\", "\\e").replace("-", "\\-")
    return "\n".join("\\&" + line if line.startswith((".", "'")) else line for line in safe.splitlines())


def paragraphs(text: str) -> str:
    """The paragraphs of a help text, a sentence a line."""
    parts = [" ".join(it.split()) for it in text.split("\n\n")]
    return ".PP\n".join(escaped(re.sub(r"(?<=[a-z)][.:]) (?=[A-Z])", "\n", it)) + "\n" for it in parts)


def commands(group: click.Group, words: tuple[str, ...] = (NAME,)) -> list[tuple[tuple[str, ...], click.Command]]:
    """All commands below a group, with their words."""
    found: list[tuple[tuple[str, ...], click.Command]] = []
    for name, command in sorted(group.commands.items()):
        found.append(((*words, name), command))
        if isinstance(command, click.Group):
            found += commands(command, (*words, name))
    return found


def synopsis(words: tuple[str, ...], command: click.Command) -> str:
    """How a command is typed."""
    pieces = " ".join(command.collect_usage_pieces(click.Context(command, info_name=words[-1])))
    return f".B {escaped(' '.join(words))}\n.I {escaped(pieces)}\n"


def options(command: click.Command) -> str:
    """The options of a command."""
    lines = []
    context = click.Context(command)
    for parameter in command.get_params(context):
        record = parameter.get_help_record(context)
        if record:
            lines.append(f".TP\n.B {escaped(record[0])}\n{escaped(record[1])}\n")
    return "".join(lines)


def extras(words: tuple[str, ...]) -> str:
    """What a page has beside the command's help."""
    if words[-2:] == ("election", "make"):
        keys = "".join(f".TP\n.B {escaped(key)}\n{escaped(text)}\n" for key, text in KEYS)
        return f".SH THE BOOK\n.nf\n{escaped(BOOK)}\n.fi\n{keys}"
    if words[-2:] == ("numbers", "check"):
        rows = ""
        for it in PATTERNS:
            seen = "in this order" if it.in_order else "also shuffled"
            rows += f".TP\n.B {escaped(it.name)}\n{escaped(it.words)} ({seen}).\n"
        return f".SH PATTERNS\n{rows}"
    return ""


def page(words: tuple[str, ...], command: click.Command) -> str:
    """The manual page of a command."""
    name = "-".join(words)
    text = command.help or ""
    first = " ".join(text.split("\n\n")[0].split()).rstrip(".:")
    brief = first[0].lower() + first[1:]
    statuses = "".join(f".TP\n.B {number}\n{escaped(what)}\n" for number, what in STATUSES)
    others = [it for it, _ in [((NAME,), office), *commands(office)] if it != words]
    beside = ", ".join(f"\\fB{escaped('-'.join(it))}\\fR(1)" for it in others)
    return (
        f'.TH {name.upper()} 1 {DATE} "ballot\\-office {VERSION}" "User Commands"\n'
        f".SH NAME\n{escaped(name)} \\- {escaped(brief)}\n"
        f".SH SYNOPSIS\n{synopsis(words, command)}.SH DESCRIPTION\n{paragraphs(text)}"
        f".SH OPTIONS\n{options(command)}{extras(words)}"
        f".SH EXIT STATUS\n{statuses}.SH SEE ALSO\n{beside}, \\fBballot_store\\fR(1)\n"
    )


def main(words: list[str]) -> int:
    """Writes the pages, or compares."""
    if words not in ([], ["--check"]):
        sys.exit("usage: office/make_pages.py [--check]")
    pages = {f"{'-'.join(it)}.1": page(it, command) for it, command in [((NAME,), office), *commands(office)]}
    folder = OFFICE / "man"
    folder.mkdir(exist_ok=True)
    there = {it.name: it.read_text() for it in folder.glob("*.1")}
    differing = sorted(name for name in {*pages, *there} if pages.get(name) != there.get(name))
    if not words:
        for name in there:
            (folder / name).unlink()
        for name, text in pages.items():
            (folder / name).write_text(text)
        differing = []
    for name in differing:
        print(f"DIFFERS {name}")
    print(f"pages: {len(pages)}, {len(differing)} differ")
    return 1 if differing else 0


if __name__ == "__main__":
    sys.exit(main(sys.argv[1:]))
