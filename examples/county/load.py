#!/usr/bin/env python3
"""Loads the returns of precincts into an SQLite database, which it makes by schema.sql if it is not there.

    load.py DATABASE ELECTION PRECINCTS RETURN..

PRECINCTS is a file with the name of a precinct in each line. A return has the lines "precinct NAME" and "election
SHA256", and what a session replies to `tally` and `export`. It is loaded whole or not at all, also where it is one
that will not be counted: refused.sql tells these. A file that is no return is told, and the status is then 1.
"""
import hashlib
import json
import sqlite3
import sys
from pathlib import Path

SCHEMA = Path(__file__).resolve().parent / "schema.sql"


def open_database(path, election, precincts):
    """The database, with the contests of the election, its checksum and the precincts that it had at its first load."""
    is_new = not Path(path).exists()
    database = sqlite3.connect(path, isolation_level=None)  # transactions begin and end where this program says
    if is_new:
        data = Path(election).read_bytes()
        contests = [(at, it["choices"], it["allowed"]) for at, it in enumerate(json.loads(data)["contests"], 1)]
        names = [[name] for name in Path(precincts).read_text().split()]
        database.executescript("BEGIN; " + SCHEMA.read_text())
        database.execute("INSERT INTO county VALUES (?)", [hashlib.sha256(data).hexdigest()])
        database.executemany("INSERT INTO contest VALUES (?, ?, ?)", contests)
        database.executemany("INSERT INTO precinct VALUES (?)", names)
        database.execute("COMMIT")
    return database


def require(condition):
    if not condition:
        raise ValueError("these are not the lines of a return")


def fields(line, *words):
    """The fields of a line that has these words, and a field in each place of a None."""
    found = line.split()
    require(len(found) == len(words) and all(word in (None, it) for word, it in zip(words, found)))
    return [it for word, it in zip(words, found) if word is None]


def take_tally(database, file, lines):
    """Loads the lines of a tally, each contest's in front of those of its choices."""
    for line in lines:
        if line.startswith("contest "):
            row = fields(line, "contest", None, "under", None, "over", None)
            database.execute("INSERT INTO contest_tally VALUES (?, ?, ?, ?)", [file, *map(int, row)])
        else:
            row = fields(line, "choice", None, None, None)
            database.execute("INSERT INTO choice_tally VALUES (?, ?, ?, ?)", [file, *map(int, row)])


def take_ballot(database, file, line):
    """Loads a record line: number, style, and marks such as 4/3,4/-."""
    number, style, marks = fields(line, None, None, None)
    number = f"{int(number):020}"
    database.execute("INSERT INTO ballot VALUES (?, ?, ?)", [number, file, int(style)])
    rows = [(number, file, contest, int(choice))
            for contest, group in enumerate(marks.split("/"), 1) if group != "-" for choice in group.split(",")]
    database.executemany("INSERT INTO mark VALUES (?, ?, ?, ?)", rows)


def load(database, path):
    """Loads a return."""
    lines = Path(path).read_text().splitlines()
    require(len(lines) > 3)
    file = Path(path).name
    [precinct], [election], [held] = (fields(lines[0], "precinct", None), fields(lines[1], "election", None),
                                      fields(lines[2], "tally", None))
    at = len(lines) - int(held) - 1  # the export has a line for each ballot, and ends the return
    require(at > 2)
    fields(lines[at], "export", held)
    database.execute("INSERT INTO handed VALUES (?, ?, ?, ?)", [file, precinct, election, int(held)])
    take_tally(database, file, lines[3:at])
    for line in lines[at + 1 :]:
        take_ballot(database, file, line)


def main(path, election, precincts, *returns):
    database, status = open_database(path, election, precincts), 0
    database.execute("BEGIN")
    for name in sorted(returns):
        database.execute("SAVEPOINT one")
        try:
            load(database, name)
        except (ValueError, sqlite3.IntegrityError) as error:  # then nothing of this return is loaded
            database.execute("ROLLBACK TO one")
            print(f"{name}: {error}")
            status = 1
        database.execute("RELEASE one")
    database.execute("COMMIT")
    database.close()
    return status


if __name__ == "__main__":
    if len(sys.argv) < 5:
        sys.exit(__doc__)
    sys.exit(main(*sys.argv[1:]))
