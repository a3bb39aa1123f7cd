#!/usr/bin/env python3
"""Makes up a county to try things on: media of its precincts with made-up ballots, and what each hands in.

    make_precincts.py COUNT FOLDER

`ballot_store` is on the PATH. FOLDER gets, for each precinct such as 017, `017.medium` and `017.return`, and the list
`precincts.txt`. The election of all is examples/county.json. Precinct 001 has the day of examples/county.session. The
ballots of the others come from `large`, whose numbers are not random: a real precinct has its medium from a session.
A return is what a shell makes so:

    { echo "precinct 017"; echo "election $(sha256sum <county.json | cut -c 1-64)"
      printf 'tally\\nexport\\n' | ballot_store 017.medium county.json session; } >017.return
"""
import hashlib
import subprocess
import sys
from pathlib import Path

ELECTION = Path(__file__).resolve().parent.parent / "county.json"


def ballot_store(medium, *words, script=""):
    """What the program writes to standard output; an error where it ends with another status than 0."""
    line = ["ballot_store", medium, ELECTION, *words]
    return subprocess.run(line, input=script, text=True, stdout=subprocess.PIPE, check=True).stdout


def make(folder, name, place):
    """The medium and the return of a precinct. Each has a seed of its own, so that no two ballots have one number."""
    medium = folder / f"{name}.medium"
    ballot_store(medium, "init")
    if place == 1:
        ballot_store(medium, "session", script=ELECTION.with_suffix(".session").read_text())
    else:
        ballots = 40 + place * 37 % 200
        ballot_store(medium, "large", "--seed", str(1000 * place), "--count", str(ballots), "--tabs", "2")
    told = ballot_store(medium, "session", script="tally\nexport\n")
    checksum = hashlib.sha256(ELECTION.read_bytes()).hexdigest()
    (folder / f"{name}.return").write_text(f"precinct {name}\nelection {checksum}\n{told}")


def main(count, folder):
    folder = Path(folder)
    folder.mkdir()
    names = [f"{place:03}" for place in range(1, int(count) + 1)]
    for place, name in enumerate(names, 1):
        make(folder, name, place)
    (folder / "precincts.txt").write_text("".join(f"{name}\n" for name in names))


if __name__ == "__main__":
    if len(sys.argv) != 3:
        sys.exit(__doc__)
    main(*sys.argv[1:])
