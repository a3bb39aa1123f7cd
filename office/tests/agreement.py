#!/usr/bin/python3
"""Compares `election check --election FILE` with `init` of the program on random texts of elections.

    office/tests/agreement.py PROGRAM [COUNT] [SEED]

The check has to end with 0 exactly where `init` on a new file answers neither of the refusals of an election. The last
line is 'agreement: N texts, G good, D differ'.
"""
import contextlib
import itertools
import os
import subprocess
import sys
import tempfile
from pathlib import Path

OFFICE = Path(__file__).resolve().parent.parent
sys.path[:0] = [str(OFFICE), str(OFFICE.parent / "tools"), str(OFFICE / "tests")]

from random_texts import random_texts  # noqa: E402

from ballot_office.people.main import run  # noqa: E402

BAD_ELECTION, TOO_LONG = 3, 4
TOLD_EACH = 1_000


def refused(program: Path, room: Path) -> bool:
    """Whether `init` on a new file refuses the election in the room."""
    medium = room / "medium"
    medium.unlink(missing_ok=True)
    words = [str(it) for it in (program, medium, room / "election.json", "init")]
    done = subprocess.run(words, stdin=subprocess.DEVNULL, capture_output=True, check=False)
    assert done.returncode in (0, BAD_ELECTION, TOO_LONG), done
    return done.returncode != 0


def compare(program: Path, count: int, seed: int) -> tuple[int, list[bytes]]:
    """How many of the texts are elections, and the texts on which the two differ."""
    tried, good, differing = 0, 0, []
    shared = "/dev/shm" if os.path.isdir("/dev/shm") else None
    with tempfile.TemporaryDirectory(dir=shared) as folder:
        room = Path(folder)
        for text in itertools.islice(random_texts(seed), count):
            (room / "election.json").write_bytes(text)
            with open(os.devnull, "w", encoding="utf-8") as null:
                with contextlib.redirect_stdout(null), contextlib.redirect_stderr(null):
                    status = run(["election", "check", "--election", str(room / "election.json")])
            is_refused = refused(program, room)
            good += not is_refused
            if status not in (0, 1) or (status == 0) == is_refused:
                differing.append(text)
            tried += 1
            if tried % TOLD_EACH == 0:
                print(f"texts {tried}, {good} good, {len(differing)} differ", flush=True)
    return good, differing


def main(words: list[str]) -> int:
    """Compares, and tells what differs."""
    count = int(words[1]) if len(words) > 1 else 20_000
    seed = int(words[2]) if len(words) > 2 else 1
    good, differing = compare(Path(words[0]).resolve(), count, seed)
    for text in differing[:10]:
        print(f"DIFFERS {text!r:.1000}")
    print(f"agreement: {count} texts, {good} good, {len(differing)} differ")
    return 1 if differing else 0


if __name__ == "__main__":
    sys.exit(main(sys.argv[1:]))
