"""What is measured: elections, scripts and the works of each group. `measure.py` runs them."""
import hashlib
import os
import random

GROUPS = {
    "large": "(a) `large`, medium in memory (tmpfs): count x tabulators, bits 16 and 15",
    "large-disk": "(a) `large`, medium on the disk",
    "one-home": "(a) `large` with all homes equal (bits 0): quadratic for every such table",
    "checkpoint": "(b) `session`: k checkpoints of 8 casts each on 16,384 ballots (limit 32,768), medium in memory",
    "checkpoint-disk": "(b) the same, medium on the disk",
    "build": "(c) `build` from record lines",
    "audit": "(d) `audit` and recovery of a full medium (32,768 ballots), medium in memory",
    "audit-disk": "(d) the same, medium on the disk",
    "find": "(e) `session` with a find phase of 200,000 finds on a full medium",
    "start": "(f) process start: `init` and `audit` under an election of limit 8",
    "random": "(g) `session` that casts random numbers up to the limit (crowded claim words), and 500 beyond it",
    "withdraw": "(g) `session` that withdraws all ballots of a full medium",
    "texts": "(h) `session` with `tally` and `export` on a full medium",
    "contests": "(i) version 1, 16 contests of 32 choices",
    "migrate": "(j) `migrate` of a full medium of version 1 to version 2",
    "merge": "(k) `merge` of media of 4,096 ballots each into an empty one of limit 32,768",
    "sample": "(l) `sample`, and `compare` of 1,000 lines, on a full medium",
    "twin": "(m) checkpoints of 8 casts each on 16,384 ballots by `twin`, and the same by `session`, media in memory",
    "twin-disk": "(m) the same, media on the disk",
    "part": "(n) `part`: random numbers cast into empty parts, and a checkpoint; and the same by `session`",
    "replay": "(o) `replay` of 4,000 numbers of four tabulators",
    "wide": "(p) version 2, 24 contests of 64 choices, limit 32,768, bits 16",
    "disk": "(q) what else SQLite has, medium on the disk",
}
# The works on the disk whose peers are these; `disk` has SQLite's own way alone.
DISK_GROUPS = ("large-disk", "checkpoint-disk", "audit-disk", "twin-disk", "disk")
DISK_PEERS = ("rust-lockfree", "rust-best", "sqlite-wal", "sqlite-delete", "sqlite-wal-plain")
# The work of a group against which its others are set.
AGAINST = {"twin": "session, %d checkpoints", "twin-disk": "session, %d checkpoints",
           "part": "session, 32,768 casts, %d tabs"}
DICE = "31415926535897932384"
LIMIT = 32768


def election(limit, bits):
    return {"contests": [{"choices": 4, "allowed": 1}, {"choices": 3, "allowed": 2}], "styles": [[1, 2]],
            "limit": limit, "bits": bits, "salt": "0000000000000000"}


def many_contests(contests, choices):
    """An election of version 1; on its second style stands every other contest."""
    styles = [list(range(1, contests + 1)), list(range(1, contests + 1, 2))]
    return dict(election(LIMIT, 16), contests=[{"choices": choices, "allowed": 3}] * contests, styles=styles)


def in_version_two(e):
    return dict(e, version=2)


TWO, SIXTEEN, WIDE = election(LIMIT, 16), many_contests(16, 32), in_version_two(many_contests(24, 64))


def bank_bytes(e):
    return 32 + (2 ** e["bits"] + e["limit"]) * (9 + 4 * e.get("version", 1) * len(e["contests"]))


def phase(kind, lines, tabs):
    return ["open %s %d" % (kind, tabs)] + ["%s %d %s" % (kind, 1 + i % tabs, l) for i, l in enumerate(lines)] + ["close"]


class Scripts(dict):
    """The scripts by name, each written when it is first asked for. A name ends with the election that its ballots are
    of: nothing for two contests, `-sixteen` or `-wide`."""

    def __init__(self, folder, seed):
        self.folder, self.seed = folder, seed
        rng = random.Random(seed)
        self.numbers = list({rng.getrandbits(64) | 1 for _ in range(42000)})
        rng.shuffle(self.numbers)
        marks = lambda: (rng.choice(["-", "1", "2", "3", "4"]), rng.choice(["-", "1", "2", "1,3", "1,2,3"]))
        self.ballots = {"": ["%d 1 %s/%s" % (self.numbers[i], *marks()) for i in range(34000)]}

    def __missing__(self, name):
        words = name.split("-")
        kind = words.pop() if words[-1] in ("sixteen", "wide") else ""
        if kind and kind not in self.ballots:
            self.ballots[kind] = self.many_ballots(*{"sixteen": (16, 32), "wide": (24, 64)}[kind])
        lines = getattr(self, words[0])(self.ballots[kind], *map(int, words[1:]))
        self[name] = path = os.path.join(self.folder, "script-" + name)
        with open(path, "w") as f:
            f.writelines(l + "\n" for l in lines)
        return path

    def many_ballots(self, contests, choices):
        """Record lines under `many_contests`; a quarter of them are of its second style."""
        rng = random.Random("%d %d %d" % (self.seed, contests, choices))
        drawn = [sorted(rng.sample(range(1, choices + 1), rng.choice((1, 2, 3, 3)))) for _ in range(200)]
        groups = ["-"] + [",".join(map(str, marks)) for marks in drawn]
        lines = []
        for i in range(LIMIT):
            marks = rng.choices(groups, k=contests)
            if i % 4 == 0:
                marks[1::2] = ["-"] * len(marks[1::2])
            lines.append("%d %d %s" % (self.numbers[i], 1 if i % 4 else 2, "/".join(marks)))
        return lines

    def empty(self, ballots):
        return []

    def casts(self, ballots, count, tabs):
        return phase("cast", ballots[:count], tabs) + ["checkpoint"]

    def full(self, ballots):
        return self.casts(ballots, LIMIT, 4)

    def half(self, ballots):
        return self.casts(ballots, LIMIT // 2, 4)

    def slice(self, ballots, i):
        return phase("cast", ballots[4096 * i:4096 * (i + 1)], 1) + ["checkpoint"]

    def build(self, ballots, count):
        return ballots[:count]

    def check(self, ballots, k):
        at = LIMIT // 2
        return [l for i in range(k) for l in phase("cast", ballots[at + 8 * i:at + 8 * i + 8], 1) + ["checkpoint"]]

    def find(self, ballots, tabs):
        rng, n = random.Random(self.seed + tabs), self.numbers
        return phase("find", [n[rng.randrange(LIMIT) if i % 2 else 34000 + rng.randrange(8000)] for i in range(200000)], tabs)

    def withdraw(self, ballots, tabs):
        return phase("withdraw", self.numbers[:LIMIT], tabs)

    def tally(self, ballots):
        return ["tally"] * 10

    def export(self, ballots):
        return ["export"]

    def compare(self, ballots):
        """A hand count of a sample of 1,000, which differs in few ballots."""
        ticket = lambda line: hashlib.sha256(DICE.encode() + int(line.split()[0]).to_bytes(8, "big")).digest()
        drawn = sorted(ballots[:LIMIT], key=ticket)[:1000]
        random.Random(self.seed).shuffle(drawn)
        return [" ".join(l.split()[:2]) + " -/-" if i % 100 == 0 else l for i, l in enumerate(drawn)]

    def parts(self, ballots):
        """As many casts as eight parts hold, by 64 tabulators."""
        spread = ["%d 1 %d/-" % ((i % 8) << 61 | self.numbers[i // 8] >> 3, 1 + i % 4) for i in range(8 * LIMIT)]
        return phase("cast", spread, 64) + ["checkpoint"]

    def replay(self, ballots):
        lists = [self.numbers[1000 * t + i:1000 * t + i + 100] for t in range(4) for i in range(0, 1000, 100)]
        lines = ["list %d %s" % (1 + i // 10, " ".join(map(str, l))) for i, l in enumerate(lists)]
        rng = random.Random(self.seed)
        steps = ["steps " + " ".join(str(rng.randrange(1, 5)) for _ in range(500)) for _ in range(16)]
        return ["start", "cast 4"] + lines + steps


class Work:
    """One workload: what all programs do, and what came of it. `start` is the kind of the starting medium, `more` those
    of further media, which are the last words; `start_e` is the election of the first one where it is another. `script`
    is the name of its script."""

    def __init__(self, group, label, e, words, start, script=None, *, expect=0, reps=1.0, sqlite=True, only=None,
                 same=True, key=None, more=(), start_e=None):
        self.group, self.label, self.e, self.words, self.start = group, label, e, words, start
        self.script, self.place = script, "disk" if group in DISK_GROUPS else "shm"
        self.expect, self.reps, self.sqlite, self.only, self.same = expect, reps, sqlite, only, same
        self.key, self.more, self.start_e = key or {}, list(more), start_e or e
        self.runs, self.state = {}, {}

    def name(self):
        return self.group + ": " + self.label


def workloads(quick, groups):
    """The works of these groups; fewer of each kind where it has to be quick."""
    out = []
    for some in (large_works, store_works, text_works, further_works, twin_and_part_works, wide_works, disk_works):
        some(quick, lambda *given, **more: out.append(Work(*given, **more)))
    return [w for w in out if w.group in groups]


def large_words(count, tabs):
    return ["large", "--seed", "1", "--count", str(count), "--tabs", str(tabs)]


def large_works(quick, add):
    counts = (1000, 32768) if quick else (1000, 8000, 20000, 32768)
    tabs = (1, 4) if quick else (1, 2, 4, 8, 16)

    def large(group, e, n, t, **more):
        add(group, "bits %d, %d records, %d tabs" % (e["bits"], n, t), e, large_words(n, t), "empty",
            key={"bits": e["bits"], "count": n, "tabs": t}, **more)
    for e in (TWO, election(LIMIT, 15)):
        for n in counts:
            for t in tabs:
                large("large", e, n, t, sqlite=t == 1 and e is TWO)
    for n in counts if not quick else (32768,):
        for t in (1, 8):
            large("large-disk", TWO, n, t, only=DISK_PEERS, sqlite=t == 1, reps=0.7)
    for n in (1000, 4000) if quick else (1000, 2000, 4000, 8000):
        for t in (1, 4):
            large("one-home", election(LIMIT, 0), n, t, sqlite=False, reps=0.5)


def store_works(quick, add):
    for group, only in (("checkpoint", None), ("checkpoint-disk", DISK_PEERS)):
        for k in (0, 10) if quick else (0, 1, 10, 100):
            add(group, "%d checkpoints" % k, TWO, ["session"], "half", "check-%d" % k, key={"k": k}, only=only,
                reps=0.7 if k < 100 else 0.4)
    for n in (1000, 8000, 32768):
        add("build", "%d lines" % n, TWO, ["build"], None, "build-%d" % n, key={"count": n})
    for group, only in (("audit", None), ("audit-disk", DISK_PEERS)):
        add(group, "audit", TWO, ["audit"], "full", only=only)
        add(group, "session, empty script (clean)", TWO, ["session"], "full", "empty", only=only)
        add(group, "session, empty script, bank B torn", TWO, ["session"], "torn-b", "empty", only=only, sqlite=False)
        add(group, "session, empty script, bank A torn", TWO, ["session"], "torn-a", "empty", only=only, sqlite=False)
    small = election(8, 3)
    add("start", "init, new file", small, ["init"], None, reps=3)
    add("start", "audit", small, ["audit"], "empty", reps=3)


def text_works(quick, add):
    for t in (4,) if quick else (1, 4, 16):
        add("find", "%d tabs" % t, TWO, ["session"], "full", "find-%d" % t, key={"tabs": t})
    for t in (1,) if quick else (1, 4, 8, 16):
        key = {"tabs": t}
        add("random", "32,768 casts, %d tabs" % t, TWO, ["session"], "empty", "casts-32768-%d" % t, key=key)
        # which numbers stay out depends on the threads, so outputs and media may differ
        add("random", "33,268 casts (500 full), %d tabs" % t, TWO, ["session"], "empty", "casts-33268-%d" % t, key=key,
            same=t == 1, reps=0.5)
    for t in (1,) if quick else (1, 4, 16):
        add("withdraw", "all 32,768, %d tabs" % t, TWO, ["session"], "full", "withdraw-%d" % t, key={"tabs": t})
    for what, script in (("ten tallies", "tally"), ("one export", "export")):
        add("texts", what, TWO, ["session"], "full", script)
    more = {"sqlite": False, "reps": 0.5}
    add("contests", "32,768 casts, 1 tabs", SIXTEEN, ["session"], "empty", "casts-32768-1-sixteen", **more)
    add("contests", "large, 32,768 records, 4 tabs", SIXTEEN, large_words(LIMIT, 4), "empty", **more)
    add("contests", "one export", SIXTEEN, ["session"], "full-sixteen", "export", **more)


def further_works(quick, add):
    two = {"only": ("rust-lockfree", "rust-best"), "sqlite": False}
    add("migrate", "two contests", in_version_two(TWO), ["migrate"], "full", more=[None], start_e=TWO, **two)
    add("migrate", "16 contests of 32 choices", in_version_two(SIXTEEN), ["migrate"], "full-sixteen", more=[None],
        start_e=SIXTEEN, reps=0.5, **two)
    for n in (2, 8):
        add("merge", "%d media" % n, TWO, ["merge"], "empty", more=["slice-%d" % i for i in range(n)], **two)
    add("sample", "sample of 1,000", TWO, ["sample", DICE, "1000"], "full", **two)
    add("sample", "compare of 1,000 lines", TWO, ["compare", DICE, "1000"], "full", "compare", **two)
    if not quick:
        add("sample", "sample of 32,768", TWO, ["sample", DICE, "32768"], "full", **two)
    add("replay", "4,000 numbers, 4 tabs", TWO, ["replay"], None, "replay", **two)


def twin_and_part_works(quick, add):
    two = {"only": ("rust-lockfree", "rust-best"), "sqlite": False, "reps": 0.7}
    for group in ("twin", "twin-disk"):
        for k in (10,) if quick else (0, 10):
            for word, more in ("session", []), ("twin", ["half"]):
                add(group, "%s, %d checkpoints" % (word, k), TWO, [word], "half", "check-%d" % k, more=more,
                    key={"k": k}, **two)
    for t in (1, 8):
        script, key = "casts-32768-%d" % t, {"tabs": t}
        add("part", "session, 32,768 casts, %d tabs" % t, TWO, ["session"], "empty", script, key=key, **two)
        for n in (8,) if quick else (2, 4, 8):
            add("part", "%d parts, 32,768 casts, %d tabs" % (n, t), TWO, ["part"], "empty", script,
                more=["empty"] * (n - 1), key=key, **two)
    add("part", "8 parts, 262,144 casts, 64 tabs", TWO, ["part"], "empty", "parts", more=["empty"] * 7,
        key={"tabs": 64}, **dict(two, reps=0.3))


def wide_works(quick, add):
    rust = {"only": ("rust-lockfree", "rust-best", "rust-mutex", "rust-btree"), "sqlite": False, "reps": 0.5}
    two = dict(rust, only=("rust-lockfree", "rust-best"))

    def session(label, start, script, **more):
        add("wide", label, WIDE, ["session"], start + "-wide", script + "-wide", **dict(rust, **more))
    add("wide", "build of 32,768 lines", WIDE, ["build"], None, "build-32768-wide", **rust)
    for t in (4,) if quick else (1, 4, 8):
        add("wide", "large, 32,768 records, %d tabs" % t, WIDE, large_words(LIMIT, t), "empty", key={"tabs": t}, **rust)
    for t in (1,) if quick else (1, 8):
        session("session of 32,768 casts, %d tabs" % t, "empty", "casts-32768-%d" % t, key={"tabs": t})
    session("withdrawals of all 32,768, 1 tabs", "full", "withdraw-1", key={"tabs": 1})
    session("finds, 4 tabs", "full", "find-4")
    session("ten tallies", "full", "tally")
    session("one export", "full", "export")
    session("10 checkpoints", "half", "check-10")
    add("wide", "audit", WIDE, ["audit"], "full-wide", **rust)
    session("session, empty script (clean)", "full", "empty")
    session("session, empty script, bank B torn", "torn-b", "empty")
    add("wide", "sample of 1,000", WIDE, ["sample", DICE, "1000"], "full-wide", **two)
    add("wide", "merge of 8 media", WIDE, ["merge"], "empty", more=["slice-%d-wide" % i for i in range(8)], **two)
    add("wide", "twin, 10 checkpoints", WIDE, ["twin"], "half-wide", "check-10-wide", more=["half-wide"], **two)
    add("wide", "8 parts, 32,768 casts, 8 tabs", WIDE, ["part"], "empty", "casts-32768-8-wide", more=["empty"] * 7,
        **two)


def disk_works(quick, add):
    own = {"only": ("rust-lockfree", "sqlite-wal"), "reps": 0.5}
    add("disk", "init, new file", election(8, 3), ["init"], None, **own)
    for n in (1000, 32768):
        add("disk", "build, %d lines" % n, TWO, ["build"], None, "build-%d" % n, **own)
    add("disk", "32,768 casts, 1 tabs", TWO, ["session"], "empty", "casts-32768-1", **own)
    add("disk", "withdrawals of all 32,768, 1 tabs", TWO, ["session"], "full", "withdraw-1", **own)
    add("disk", "finds, 4 tabs", TWO, ["session"], "full", "find-4", **own)
    add("disk", "ten tallies", TWO, ["session"], "full", "tally", **own)
    add("disk", "one export", TWO, ["session"], "full", "export", **own)
