#!/usr/bin/env python3
"""Measures how the cost of a program grows, and how much memory it takes, beside a peer.

    growth.py BINARY PEER [--count] [--out NAME.json]

For 1,000, 8,000 and 32,768 ballots of each kind of work, or 1,000, 4,000 and 8,000 where all homes are equal:
instructions by callgrind with --count, else processor time (the least of five runs), and peak memory. The last columns
are the growth of BINARY between the last two sizes, that of PEER, and one by the other. NAME.json gets all of it.
"""
import argparse
import json
import os
import random
import shutil
import subprocess
import sys
import tempfile
from pathlib import Path

SIZES = (1_000, 8_000, 32_768)
CROWDED = (1_000, 4_000, 8_000)  # where all homes are equal


def election(contests, bits, limit=32_768):
    """Contests of 4 choices; with more than 16 contests of 64 choices, in version 2."""
    parts = {"contests": [{"choices": 4, "allowed": 1}] * contests, "styles": [list(range(1, contests + 1))],
             "limit": limit, "bits": bits, "salt": "0000000000000000"}
    return parts if contests <= 16 else {**parts, "contests": [{"choices": 64, "allowed": 1}] * contests, "version": 2}


def ballots(count, contests, parts):
    rng = random.Random(7)
    numbers = {}
    while len(numbers) < count * parts:  # in turn one of each part
        numbers[len(numbers) % parts * (2**64 // parts) + (rng.getrandbits(64) | 1) // parts or 1] = None
    groups = "-1234" if contests <= 16 else ["-", *map(str, range(1, 65))]
    return [(number, "/".join(rng.choice(groups) for _ in range(contests))) for number in numbers]


def phase(kind, lines, tabs):
    return [f"open {kind} {tabs}"] + [f"{kind} {1 + at % tabs} {line}" for at, line in enumerate(lines)] + ["close"]


class Work:
    """A kind of work: its election, its words, its script, and the lines that make the medium before it. In a store of
    parts there are so many ballots in each of them."""

    def __init__(self, name, make, contests=2, bits=16, parts=1):
        self.name, self.make, self.contests, self.bits, self.parts = name, make, contests, bits, parts


def casts(tabs):
    return lambda cast, _: (["session"], [], phase("cast", cast, tabs) + ["checkpoint"])


def on_full(lines):
    return lambda cast, numbers: (["session"], phase("cast", cast, 1) + ["checkpoint"], lines(numbers))


def in_eight(cast, _):
    return ["part", *(f"part{k}" for k in range(1, 8))], [], phase("cast", cast, 64) + ["checkpoint"]


WORKS = [
    Work("build", lambda cast, _: (["build"], [], cast)),
    Work("casts, 1 tabulator", casts(1)),
    Work("casts, 16 tabulators", casts(16)),
    Work("withdrawals of all", on_full(lambda numbers: phase("withdraw", numbers, 1))),
    Work("finds of all", on_full(lambda numbers: phase("find", numbers, 1))),
    Work("ten tallies", on_full(lambda numbers: ["tally"] * 10)),
    Work("one export", on_full(lambda numbers: ["export"])),
    Work("audit", lambda cast, _: (["audit"], phase("cast", cast, 1) + ["checkpoint"], [])),
    Work("large, 16 tabulators", lambda cast, _: (["large", "--seed", "1", "--count", str(len(cast)), "--tabs", "16"],
                                                  [], [])),
    Work("casts, all homes equal", casts(1), bits=0),
    Work("build, all homes equal", lambda cast, _: (["build"], [], cast), bits=0),
    Work("casts, 16 contests", casts(1), contests=16),
    Work("large, 16 contests", lambda cast, _: (["large", "--seed", "1", "--count", str(len(cast)), "--tabs", "4"],
                                                [], []), contests=16),
    Work("one export, 16 contests", on_full(lambda numbers: ["export"]), contests=16),
    Work("casts, 24 contests of 64 choices", casts(1), contests=24),
    Work("large, 24 contests of 64 choices",
         lambda cast, _: (["large", "--seed", "1", "--count", str(len(cast)), "--tabs", "4"], [], []), contests=24),
    Work("build, 24 contests of 64 choices", lambda cast, _: (["build"], [], cast), contests=24),
    Work("ten tallies, 24 contests of 64 choices", on_full(lambda numbers: ["tally"] * 10), contests=24),
    Work("one export, 24 contests of 64 choices", on_full(lambda numbers: ["export"]), contests=24),
    Work("audit, 24 contests of 64 choices",
         lambda cast, _: (["audit"], phase("cast", cast, 1) + ["checkpoint"], []), contests=24),
    Work("8 parts, casts into each", in_eight, parts=8),
]


def run(room, program, words, script, counted):
    """Runs a program; answers millions of instructions or seconds of processor time, and its peak memory in MiB."""
    before = ["valgrind", "--tool=callgrind", "--callgrind-out-file=/dev/null", "--fair-sched=yes"] if counted else []
    (room / "script").write_bytes("".join(line + "\n" for line in script).encode())
    files = [str(room / name) for name in ("script", "out", "told")]
    done = subprocess.run([str(room / "runner"), "600", *files, "--", *before, program, str(room / "medium"),
                           str(room / "election"), *words], capture_output=True, text=True, check=True, cwd=room)
    _, user, system, memory, status, *_ = map(int, done.stdout.split())
    told = (room / "told").read_text()
    assert status == 0, (program, words, told)
    if counted:
        return float(told.split("Collected :")[1].split()[0]) / 1e6, 0
    return (user + system) / 1e6, memory / 1024


def cost(room, program, work, count, counted):
    lines = ballots(count, work.contests, work.parts)
    cast = [f"{number} 1 {groups}" for number, groups in lines]
    words, before, script = work.make(cast, [str(number) for number, _ in lines])
    (room / "election").write_text(json.dumps(election(work.contests, work.bits)))
    times, peak = [], 0
    for with_valgrind in (False, True) if counted else (False,) * 5:
        (room / "medium").unlink(missing_ok=True)
        if words != ["build"]:
            run(room, program, ["init"], [], False)
            for k in range(1, work.parts):
                shutil.copyfile(room / "medium", room / f"part{k}")
            if before:
                run(room, program, ["session"], before, False)
        time, memory = run(room, program, words, script, with_valgrind)
        if with_valgrind == counted:
            times.append(time)
        peak = max(peak, memory)
    return min(times), peak


def measured(room, work, programs, counted):
    """A work's cost by each program for each number of ballots."""
    sizes = SIZES if work.bits else CROWDED
    found = {"work": work.name, "ballots": sizes}
    for name, program in programs.items():
        costs = [cost(room, program, work, size, counted) for size in sizes]
        found[name] = [round(spent, 4) for spent, _ in costs]
        found[name + "_mib"] = [round(peak, 2) for _, peak in costs]
    return found


def line(found):
    """Its line in the table that is printed."""
    grown, peers = (found[name][-1] / found[name][-2] for name in ("program", "peer"))
    last = found["program"][-1] / found["peer"][-1]
    figures = [f for name in ("program", "peer") for f in [*found[name], found[name + "_mib"][-1]]]
    return " | ".join([found["work"]] + [f"{figure:.3g}" for figure in (*figures, last, grown, peers, grown / peers)])


def main():
    wanted = argparse.ArgumentParser(description=__doc__, formatter_class=argparse.RawDescriptionHelpFormatter)
    wanted.add_argument("program")
    wanted.add_argument("peer")
    wanted.add_argument("--count", action="store_true", help="instructions, by callgrind")
    wanted.add_argument("--out", help="a JSON file for the costs")
    given = wanted.parse_args()
    programs = {"program": os.path.abspath(given.program), "peer": os.path.abspath(given.peer)}
    unit = "million instructions" if given.count else "seconds"
    heads = ["Work", f"{unit}, few", "more", "most", "MiB", "peer, few", "more", "most", "MiB", "ratio", "growth"]
    print("| " + " | ".join([*heads, "peer's", "by it"]) + " |\n|" + "---|" * (len(heads) + 2))
    works = []
    with tempfile.TemporaryDirectory(dir="/dev/shm") as folder:
        source = Path(__file__).resolve().parent / "tools/runner.c"
        subprocess.run(["cc", "-O2", "-static", "-o", f"{folder}/runner", source], check=True)
        for work in WORKS:
            works.append(measured(Path(folder), work, programs, given.count))
            print("| " + line(works[-1]) + " |", flush=True)
    if given.out:
        Path(given.out).write_text(json.dumps({"unit": unit, "works": works}, indent=1))


main()
