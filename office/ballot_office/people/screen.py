"""What is written to a terminal: lines to standard output, problems to standard error."""

from collections.abc import Iterable

import click

from ballot_office.pure.problems import ERROR, NOTE, WARNING, Problem, is_shown, sentence

PLURALS = {ERROR: "errors", WARNING: "warnings", NOTE: "notes"}


def tell(problems: Iterable[Problem]) -> None:
    """Writes the sentences of problems."""
    for one in problems:
        click.echo(sentence(one), err=True)


def say(line: str) -> None:
    """Writes a line of the output."""
    click.echo("".join(c if is_shown(c) or c == "\u00a0" else "\ufffd" for c in line))


def counted(problems: list[Problem]) -> str:
    """How many problems of each weight there are."""
    counts = [(sum(it.weight == weight for it in problems), weight) for weight in (ERROR, WARNING, NOTE)]
    return ", ".join(f"{count} {weight if count == 1 else PLURALS[weight]}" for count, weight in counts if count)
