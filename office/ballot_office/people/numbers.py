"""The commands on lists of ballot numbers."""

import click

from ballot_office.people import pages
from ballot_office.people.election import FILE
from ballot_office.people.screen import say, tell
from ballot_office.pure.numbers import MOST_COUNT, list_text, read_list, typed
from ballot_office.pure.patterns import patterns_in
from ballot_office.pure.problems import Place, Refused, problem
from ballot_office.store.books import FOUND
from ballot_office.store.chance import draw_numbers, shuffled
from ballot_office.store.files import PRIVATE, destroy, read_file, see_that_new, write_new

MOST_BYTES = 22 * MOST_COUNT
MOST_LABELS = 32_768
MOST_TOLD = 100
LEFT = """\
The name is gone, and the bytes under it were overwritten with zeros first.
That is all a command can do. It cannot reach
 - a copy, a backup, or a snapshot of the file system, and what a file system with a log or copies on writing keeps;
 - what a flash disk or a stick keeps of blocks that it has written elsewhere;
 - swap, the memory of a printer, its queue, and the printed labels.
Where the list has to be gone for certain, destroy the disk; or keep it on an encrypted one, and destroy the key."""


@click.group(invoke_without_command=True)
@click.option("--count", type=int, help="How many numbers are drawn.")
@click.option("--out", type=FILE, help="The list that is written; a file of this name is left alone.")
@click.option("--labels", type=FILE, help="Also writes a page of labels, in an order of its own.")
@click.option("--title", default="", help="What stands on top of the page of labels.")
@click.pass_context
def numbers(context: click.Context, count: int | None, out: str | None, labels: str | None, title: str) -> None:
    """Draws the numbers of ballots: --count N --out FILE.

    The system's generator draws them. All are different, none is 0, and their order is shuffled once more. The list
    is yours alone to read (mode 0600). A label has the number as a QR code for a scanner and in digits for a typist,
    with two check digits.

    Who has the list, the labels or the printer's memory, and notes which sheet a voter got, finds the voter's marks in
    an export: shuffle the sheets, let nobody note a number, and destroy the list.
    """
    if context.invoked_subcommand is not None:
        if count is not None or out or labels or title:
            raise click.UsageError(f"{context.invoked_subcommand} takes no option of drawing")
        return
    if count is None or out is None:
        raise click.UsageError("say --count N and --out FILE, or check, typed or destroy")
    if not 1 <= count <= MOST_COUNT:
        raise Refused([problem("count-range", Place(key="--count"), count=count)], 2)
    if labels and count > MOST_LABELS:
        raise Refused([problem("labels-too-many", Place(key="--labels"), count=count, most=f"{MOST_LABELS:,}")], 2)
    for file in (out, labels):
        if file:
            see_that_new(file)
    drawn = shuffled(draw_numbers(count))
    page = pages.labels(shuffled(drawn), title) if labels else ""
    write_new(out, list_text(drawn).encode(), PRIVATE)
    if labels:
        try:
            write_new(labels, page.encode(), PRIVATE)
        except Refused:
            destroy(out)  # no list without its labels: both can be drawn anew
            raise
    say(f"numbers {count}")


@numbers.command("check")
@click.argument("file", type=FILE)
def check(file: str) -> None:
    """Looks for patterns in a list of numbers: whether all are different, in range, and of no pattern of the table.

    The table of patterns is in the manual page. The bounds are set to find each in 99 of 100 lists of 2,400 numbers,
    and to let 9,999 of 10,000 lists drawn at random pass; docs/TESTING.md has what was counted. No test shows
    randomness: a list that passes may still follow a rule, as a counter that was enciphered does. What counts is who
    drew the list, how, and before whom.
    """
    found, problems = read_list(read_file(file, MOST_BYTES), file)
    for pattern, detail in patterns_in(list(dict.fromkeys(found))):
        problems.append(problem("list-pattern", Place(file), pattern=pattern.name, detail=detail))
    tell(problems[:MOST_TOLD])
    findings = f"{len(problems)} finding{'' if len(problems) == 1 else 's'}" if problems else "no pattern found"
    say(f"numbers {len(found)}: {findings}{f', of which {MOST_TOLD} are told' if len(problems) > MOST_TOLD else ''}")
    say("No test shows that numbers are random.")
    if problems:
        raise Refused([], FOUND)


@numbers.command("typed")
@click.argument("text", nargs=-1, required=True)
def typed_number(text: tuple[str, ...]) -> None:
    """Says the number of a label that was typed, with or without its spaces, if the check digits fit.

    A number leads to the votes on its sheet: type it where nobody looks on, and only where it is needed.
    """
    say(str(typed("".join(text))))


@numbers.command("destroy")
@click.argument("file", type=FILE)
@click.confirmation_option(prompt="The list will be gone. Go on?")
def destroy_list(file: str) -> None:
    """Overwrites a list of numbers, takes its name away, and says what no command can do.

    As long as the list is somewhere, whoever has it and knows which sheet a voter got finds that voter's votes.
    """
    _, problems = read_list(read_file(file, MOST_BYTES), file)
    if any(it.name in ("list-line", "list-empty") for it in problems):
        raise Refused([problem("not-a-list", Place(file))], FOUND)
    others = destroy(file)
    say(f"destroyed {file}")
    if others:
        say(f"The file had {others} more names, under which it has zeros now.")
    say_lines(LEFT)


def say_lines(text: str) -> None:
    """Writes the lines of a text."""
    for one in text.splitlines():
        say(one)
