#!/usr/bin/env python3
"""Writes what a query finds in a county's database, a row in each line. It changes nothing.

    ask.py DATABASE QUERY

QUERY is a file with one SELECT, as those beside this program.
"""
import sqlite3
import sys
from pathlib import Path


def ask(database, query):
    """The rows of a query."""
    found = sqlite3.connect(f"{Path(database).resolve().as_uri()}?mode=ro", uri=True)
    rows = found.execute(Path(query).read_text()).fetchall()
    found.close()
    return rows


if __name__ == "__main__":
    if len(sys.argv) != 3:
        sys.exit(__doc__)
    for row in ask(*sys.argv[1:]):
        print(*row)
