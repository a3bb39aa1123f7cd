"""The program `ballot-office`: its options, its version, and how each command ends."""

import os
import sys
import traceback

import click

from ballot_office import VERSION
from ballot_office.people.election import FILE, Told, election
from ballot_office.people.numbers import numbers
from ballot_office.people.screen import say, tell
from ballot_office.pure.problems import Place, Refused, problem
from ballot_office.store.files import FAILED, why
from ballot_office.store.program import find_program, served_sums

NAME = "ballot-office"


def tell_version(told: Told) -> None:
    """Writes the version, the sums that are served, and the program's."""
    say(f"{NAME} {VERSION}")
    for one in served_sums():
        say(f"serves {one}")
    program = find_program(told.path, told.named_sum)
    say(f"program {program.sum} {program.path}")


@click.group(
    invoke_without_command=True, context_settings={"help_option_names": ["--help", "-h"], "max_content_width": 100}
)
@click.option("--program", type=FILE, default="", help="The program ballot_store, else that on the PATH.")
@click.option("--program-sum", default="", help="The SHA-256 of a program that is used, served or not.")
@click.option("--version", "asked", is_flag=True, help="Tells versions and sums, and ends.")
@click.pass_context
def office(context: click.Context, program: str, program_sum: str, asked: bool) -> None:
    """What an election office works with beside the proved program ballot_store.

    Statuses: 0 all was done, 1 a check found something, 2 the words are no command, 3 a file or a program failed.
    """
    context.obj = Told(program, program_sum)
    if asked:
        tell_version(context.obj)
        context.exit(0)
    if context.invoked_subcommand is None:
        click.echo(context.get_help())


office.add_command(election)
office.add_command(numbers)


def run(words: list[str] | None = None) -> int:
    """Runs a command, tells each refusal, and answers its status. No traceback is shown."""
    if sys.stdout is None:
        return _unwritten(OSError("it is closed"))
    try:
        status = _ended(words)
        sys.stdout.flush()
        return status
    except OSError as error:
        return _unwritten(error)
    except SystemExit as left:  # click ends so where nobody reads its output any more, or behind a completion
        return _unwritten(OSError("nobody reads it any more")) if left.code else 0


def _ended(words: list[str] | None) -> int:
    """Runs a command, and answers its status. An `OSError` that leaves it is of the output."""
    try:
        office.main(words, prog_name=NAME, standalone_mode=False)
    except Refused as refused:
        tell(refused.problems)
        return refused.status
    except click.exceptions.Exit as ended:
        return ended.exit_code
    except click.ClickException as error:
        error.show()
        return 2
    except (click.Abort, KeyboardInterrupt):
        tell([problem("stopped", Place())])
        return FAILED
    except OSError:
        raise
    except Exception as error:  # a fault of this program: told, and no traceback
        return _bug(error)
    return 0


def _unwritten(error: OSError) -> int:
    """The output failed: says so, where that can be written, and lets nothing be written at the end."""
    nowhere = os.open(os.devnull, os.O_WRONLY)
    os.dup2(nowhere, 1)
    try:
        tell([problem("output-unwritten", Place(), why=why(error))])
    except OSError:
        os.dup2(nowhere, 2)
    return FAILED


def _bug(error: Exception) -> int:
    """A fault of this program, with its place in a word."""
    last = traceback.extract_tb(error.__traceback__)[-1]
    place = f"{os.path.basename(last.filename)}, line {last.lineno}"
    tell([problem("bug", Place(), where=place, what=f"{type(error).__name__}: {error}")])
    return FAILED
