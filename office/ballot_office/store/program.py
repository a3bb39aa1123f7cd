"""The program `ballot_store`: where it is, whether this `ballot-office` serves it, and its runs."""

import os
import re
import shutil
import subprocess
from pathlib import Path
from typing import NamedTuple

from ballot_office.pure.problems import Place, Problem, problem
from ballot_office.store.files import failure, read_file, sha256, why

NAME = "ballot_store"
# The list of the sums that are served. It is written when the program is packaged or installed.
SUMS = Path(__file__).resolve().parent.parent.parent / "program.sums"
# Statuses of an audit that say something of the medium, and not of the machine.
OF_THE_MEDIUM = frozenset((3, 4, 9, 10, 11, 14))


class Ending(NamedTuple):
    """How a run ended: its status, and what it wrote."""

    status: int
    output: bytes
    text: str


class Program(NamedTuple):
    """The program that is used."""

    path: str
    sum: str

    def run(self, *words: str, script: bytes = b"") -> Ending:
        """Runs the program on words. Raises `Refused` where the system runs nothing."""
        try:
            done = subprocess.run([self.path, *words], input=script, capture_output=True, check=False)
        except OSError as error:
            raise failure("program-unrun", self.path, why=why(error)) from None
        text = done.stderr.decode(errors="replace").split("\n")[0].removeprefix(f"{NAME}: ")
        return Ending(done.returncode, done.stdout, text)


def served_sums() -> list[str]:
    """The SHA-256 of each program that this `ballot-office` serves."""
    try:
        return re.findall(r"^[0-9a-f]{64}(?= )", SUMS.read_text(encoding="ascii"), re.MULTILINE)
    except (OSError, UnicodeDecodeError):
        return []


def find_program(path: str, named_sum: str) -> Program:
    """The program of this path, or the first on the PATH, if its sum is served or named. Raises `Refused`."""
    found = path or shutil.which(NAME) or ""
    if not found:
        raise failure("program-missing", NAME)
    try:
        program = Program(os.path.abspath(found), sha256(Path(found).read_bytes()))
    except OSError as error:
        raise failure("program-unread", found, why=why(error)) from None
    served = served_sums()
    if named_sum and program.sum != named_sum.lower():
        raise failure("program-other-sum", found, sum=program.sum)
    if not named_sum and program.sum not in served:
        serves = "serves " + " and ".join(served) if served else "has no list of sums"
        raise failure("program-not-served", found, sum=program.sum, serves=serves)
    return program


def audit(program: Program, medium: str, election: str) -> tuple[str, list[Problem]]:
    """What an audit of a medium says, and the problem if it refuses the pair. Raises `Refused` where the run failed."""
    words = [read_name(medium), read_name(election)]
    ending = program.run(*words, "audit")
    if ending.status == 0:
        return ending.output.decode("ascii", errors="replace").strip(), []
    if ending.status in OF_THE_MEDIUM:
        return "", [problem("audit-refused", Place(medium), text=ending.text)]
    raise failure("program-failed", medium, status=ending.status, text=ending.text or "(no text)")


def read_name(file: str) -> str:
    """A file's name that the program takes for one, also where it begins with a hyphen."""
    return f"./{file}" if file.startswith("-") else file


def read_election_file(file: str) -> bytes:
    """The bytes of an election's file, or of one that is too long so many that this shows. Raises `Refused`."""
    return read_file(file, 1_048_576, and_more=True)
