"""In which order tools/build_program proves the crates, and how long that takes: crates.txt, and what is kept of each
crate in tools/build_figures.txt. A crate without a row there is guessed by its lines."""
import os
import re
import time
from pathlib import Path
from typing import NamedTuple

ROOT = Path(__file__).resolve().parent.parent
CRATES = ROOT / "crates"
FIGURES = ROOT / "tools/build_figures.txt"
# For processors of which level tools/build_program compiles the program.
LEVEL = os.environ.get("BALLOT_STORE_CPU") or "x86-64-v3"
HEAD = """\
# What the first proof of each crate took: seconds, with how many jobs of rt, and the most memory of a process in MiB.
# Written by `tools/build_program --measure` on {}, on a machine of {} processors.
"""
# How many times faster a first proof is with so many jobs, and how much more memory each further job takes: guesses.
GAIN = {1: 1.0, 2: 1.5, 3: 1.8, 4: 2.0}
MORE_MEMORY = 0.6


class Figure(NamedTuple):
    """What a crate's first proof takes."""
    seconds: float
    jobs: int
    mebibytes: float


def number_in(path, pattern):
    """The first number that a file of the system has there, or None."""
    try:
        found = re.search(pattern, Path(path).read_text(), re.MULTILINE)
    except OSError:
        return None
    return int(found[1]) if found else None


def processors():
    """How many processors there are to use, under the quota of a control group too."""
    file, found = "/sys/fs/cgroup/cpu.max", len(os.sched_getaffinity(0))
    quota, period = number_in(file, r"^(\d+) "), number_in(file, r" (\d+)$")
    return min(found, max(quota // period, 1)) if quota and period else found


def free_mebibytes():
    """The memory that is free, under the limit of a control group too."""
    free, group = number_in("/proc/meminfo", r"^MemAvailable:\s+(\d+)") >> 10, "/sys/fs/cgroup/memory"
    limit, held = number_in(f"{group}.max", r"^(\d+)"), number_in(f"{group}.stat", r"^anon (\d+)")
    return free if limit is None or held is None else min(free, (limit - held) >> 20)


def crates_of_program():
    """The program, which stands last in crates.txt, and with it all that it stands on, lowest first, each with those
    below it. Crates that only hold tests are not among them."""
    rows = [row.partition("#")[0].partition(":") for row in (ROOT / "crates.txt").read_text().splitlines()]
    named = {head.split()[0]: rest.split() for head, _, rest in rows if head.strip()}
    below = {}

    def enter(name):
        if name not in below:
            uses = [it for it in named[name] if it in named]
            below[name] = set(uses).union(*[enter(it) for it in uses])
        return below[name]

    enter(program := [*named][-1])
    return program, dict(sorted(below.items(), key=lambda it: len(it[1])))


def kept_figures():
    rows = [row.split() for row in FIGURES.read_text().splitlines()] if FIGURES.exists() else []
    return {row[0]: Figure(float(row[1]), int(row[2]), int(row[3])) for row in rows if row and row[0] != "#"}


def guess(name, loads):
    """A crate's figures by its lines of code and of proofs, and by how many crates it loads."""
    files = [it for part in ("src", "specs", "proofs") for it in (CRATES / name / part).rglob("*.*")]
    code, proofs = (sum(it.read_bytes().count(b"\n") for it in files if it.suffix == end) for end in (".rt", ".antt"))
    return Figure(10 + code / 30 + proofs / 250 + loads, 1, 700 + code // 2 + 40 * loads)


class Plan:
    """The crates that the program stands on, and what each takes."""

    def __init__(self):
        self.program, self.below = crates_of_program()
        self.kept, self.chain = kept_figures(), {}
        self.figures = {name: self.kept.get(name) or guess(name, len(uses)) for name, uses in self.below.items()}
        # (some checks take more memory than their figure says)
        self.processors, self.memory = processors(), 0.85 * free_mebibytes()
        for name in reversed([*self.below]):
            behind = [seconds for it, seconds in self.chain.items() if name in self.below[it]]
            self.chain[name] = self.seconds(name, 1) + max(behind, default=0)

    def seconds(self, name, jobs):
        figure = self.figures[name]
        return figure.seconds * GAIN[figure.jobs] / GAIN[jobs]

    def need(self, name, jobs):
        return self.figures[name].mebibytes * (1 + MORE_MEMORY * (jobs - 1))

    def next(self, left, running):
        """The crate of `left` that begins now, and with how many jobs, or None; `running` has the jobs of those that
        are at work. A crate gets the processors that no other can use now, four at most. Alone it needs no room."""
        ready = sorted((it for it in left if self.below[it].isdisjoint([*left, *running])), key=self.chain.get)
        idle = self.processors - sum(running.values())
        room = self.memory - sum(self.need(it, jobs) for it, jobs in running.items())
        while ready and idle > 0:
            share = range(1, 1 + min(max(idle // len(ready), 1), 4))
            name = ready.pop()
            jobs = max((it for it in share if self.need(name, it) <= room), default=int(not running))
            if jobs:
                return name, jobs
        return None

    def seconds_left(self, left, ends, pace):
        """How long `left` take, after those of which `ends` has the jobs and the seconds that each still takes, on a
        machine that takes `pace` times as long as the figures say."""
        left, ends, now = set(left), dict(ends), 0.0
        while left or ends:
            while found := self.next(left, {it: jobs for it, (jobs, _) in ends.items()}):
                left.remove(found[0])
                ends[found[0]] = found[1], now + pace * self.seconds(*found)
            now, name = min((end, it) for it, (_, end) in ends.items())
            del ends[name]
        return now

    def keep(self, measured):
        """Writes the figures anew: those that were measured now, and the others as they were kept. A guess is not."""
        figures = {**self.kept, **measured}
        rows = [(name, *figures[name]) for name in self.below if name in figures]
        head = HEAD.format(time.strftime("%Y-%m-%d"), self.processors)
        FIGURES.write_text(head + "".join("{} {:.0f} {} {}\n".format(*row) for row in rows))
