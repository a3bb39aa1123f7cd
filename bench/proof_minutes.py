#!/usr/bin/env python3
"""Counts the processor minutes of `rt ci`, crate by crate: of proofs and tests, and of must-fail edits.

    proof_minutes.py REPOSITORY

Start it beside `rt ci` in that repository, on a machine that has kept nothing of it, and end it with Ctrl-C (or
SIGTERM): then it prints the minutes. It looks at all processes four times a second, by /proc; what lives shorter is
not counted. With names of crates, or `--anew`, `rt ci` works in a copy, which is looked at too, whosever it is.
"""
import os
import re
import signal
import sys
import tempfile
import time
from pathlib import Path

TICKS = os.sysconf("SC_CLK_TCK")
EDITS = os.path.join(tempfile.gettempdir(), "rt-edit-")
COPIES = re.compile(re.escape(os.path.join(tempfile.gettempdir(), "rt-copy-")) + r"[^/]+/repo/crates/([^/]+)")


def status(process):
    """A process's parent, its start, and its processor seconds."""
    fields = Path("/proc", process, "stat").read_text().rsplit(") ", 1)[1].split()
    return fields[1], fields[19], (int(fields[11]) + int(fields[12])) / TICKS


def work_of(process, crates):
    """The crate that a process works on, and whether for an edit. None for any other process."""
    folder = os.readlink(f"/proc/{process}/cwd")
    if folder.startswith(crates + "/"):
        return folder[len(crates) + 1:].split("/")[0], False
    copied = COPIES.match(folder)
    if copied:
        return copied[1], False
    if folder.startswith(EDITS):
        words = Path("/proc", process, "cmdline").read_text().replace("\0", " ")
        named = re.search(r"--crate-name (\w+)", words)
        return (named[1], True) if named else None
    return None


def look(seen, crates):
    """Notes the seconds of each process at work. One whose parent is at work does the parent's work."""
    works = {process: work for (process, _), (work, _) in seen.items()}
    for process in filter(str.isdigit, os.listdir("/proc")):
        try:
            parent, start, seconds = status(process)
            known = seen.get((process, start))
            work = known[0] if known else work_of(process, crates) or works.get(parent)
        except (OSError, IndexError):
            continue
        if work:
            seen[process, start] = (work, seconds)


def report(seen, names):
    """Prints the minutes of each crate, in their order, and of all."""
    minutes = {}
    for work, seconds in seen.values():
        minutes[work] = minutes.get(work, 0) + seconds / 60
    for name in names:
        print(f"{name:20} {minutes.get((name, False), 0):6.1f} / {minutes.get((name, True), 0):5.1f}")
    edits = sum(spent for (_, is_edit), spent in minutes.items() if is_edit)
    print(f"in all {sum(minutes.values()):.0f}, of which {edits:.0f} are for edits")


def main():
    if len(sys.argv) != 2:
        sys.exit(__doc__.strip())
    repository = Path(sys.argv[1]).resolve()
    lines = (repository / "crates.txt").read_text().splitlines()
    names = [line.split(":")[0] for line in lines if line and not line.startswith("#")]
    signal.signal(signal.SIGTERM, signal.default_int_handler)
    seen = {}
    try:
        while True:
            look(seen, str(repository / "crates"))
            time.sleep(0.25)
    except KeyboardInterrupt:
        report(seen, names)


if __name__ == "__main__":
    main()
