"""Random elections, media, scripts and words, for the tools that doubt the program.

A case is made of dictionaries, lists, numbers and strings alone, so that it can be kept as JSON, and be made smaller
part by part. Its strings stand for bytes, as latin-1 has them. It has the keys

    election   a dictionary as the election's JSON, with or without "version"
    text       the election's text where it is not just that JSON, else None
    medium     None where the file is missing, else the sets that it was made of, the damage and, under "under", what
               its election has otherwise
    more       a list of further media, each as the medium, with its name (MORE1 to MORE8; one that is missing does not
               stand here)
    runs       a list of runs: words, in which MEDIUM, ELECTION and MORE1 to MORE8 stand for the files, the lines of the
               script, and where the output goes ("pipe" or "full")
"""
import json

from store_model import Rules, part_of

GOLDEN = 0x9E3779B97F4A7C15
MORE = [f"MORE{k}" for k in range(1, 9)]
NAMES = {"MEDIUM": "medium", "ELECTION": "election.json"} | {name: name.lower() for name in MORE}  # of the files
# The commands that a run is made of, and how often; and how many further media they have.
COMMANDS = {"session": 50, "audit": 12, "sample": 7, "compare": 7, "build": 8, "large": 4, "replay": 8, "init": 6,
            "merge": 16, "migrate": 16, "twin": 16, "part": 16, "words": 4, "odd": 3}
FURTHER = {"merge": [1, 1, 2, 2, 3, 4, 8], "migrate": [1], "twin": [1], "part": [1, 1, 3, 7]}
BAD_LINES = ["", " ", "\r", "\0", "close ", " close", "close\r", "Close", "checkpoint 1", "export\t", "tally\0", "open",
             "open cast", "open cast 0", "open cast 65", "open cast 01", "open  cast 1", "open cast 1 ", "open count 1",
             "open cast 1\r", "cast", "cast 1", "cast 1 ", "cast 0 1 1 1", "cast 65 1 1 1", "cast 01 1 1 1", "find 1 0",
             "withdraw 1 18446744073709551616", "find 1 18446744073709551615 ", "withdraw 1 -1", "find 1 1.0",
             "find 1 +1", "cast 1 1 1 -,1", "cast 1 1 1 1,1", "cast 1 1 1 2,1", "cast 1 1 1 1,", "cast 1 1 1 /",
             "cast 1 1 1 1/", "cast 1 1 0 1", "cast 1 1 256 1", "cast 1 01 1 1", "cast 1 1 1 65", "cast 1 1 1 0",
             "cast 1 1 1 1\xff", "cast 1 1 1  1", "x" * 8193, "cast 1 1 1 " + "-/" * 4092 + "-", "find 64 1", "dropped"]
BAD_TEXTS = ['', ' ', 'null', '[]', '{}', '\xef\xbb\xbf{}', '{"limit":1}', '{', '"', '[' * 200, '\xff']
BAD_VALUES = ['0', '-1', '-0', '1.0', '1e0', '"1"', 'null', 'true', '[]', '{}', '32769', '17', '65', '3', '01', '1 ',
              '18446744073709551616', '1' * 400, '"0"', '"0000000000000000"', '"000000000000000G"',
              '"000000000000000A"', '[1]', '[[1]]', '[[]]', '[[1,1]]', '[[2,1]]', '[[0]]', '[[99]]', '[{}]',
              '[{"choices":1}]', 'NaN',
              '[{"choices":0,"allowed":0}]', '[{"choices":1,"allowed":2}]', '[{"choices":33,"allowed":1}]',
              '[{"choices":1,"allowed":1,"x":1}]', '"\\ud800"', "[" * 130 + "]" * 130]


def election(rng, small=False, versions=(None, None, 1, 2, 2)):
    version = rng.choice(versions)
    most_contests, most_choices = (24, 64) if version == 2 else (16, 32)
    count = rng.choice([1, 1, 2, 2, 3, 4, most_contests] if not small else [1, 2, 3])
    contests = []
    for _ in range(count):
        choices = rng.choice([1, 2, 3, 4, 8, most_choices, rng.randint(1, most_choices)])
        contests.append({"choices": choices, "allowed": rng.choice([1, 1, choices, rng.randint(1, choices)])})
    styles = [sorted(rng.sample(range(1, count + 1), rng.randint(1, count))) for _ in range(rng.choice([1, 1, 2, 3]))]
    if not small and rng.random() < 0.01:
        styles *= 255 // len(styles)
    limit, bits = rng.choice([1, 2, 3, 5, 8, 8, 12, 20, rng.randint(1, 60)]), rng.choice([0, 0, 1, 2, 3, 3, 4, 5, 6])
    if small and rng.random() < 0.3:
        limit, bits = rng.randint(60, 200), rng.randint(5, 8)  # banks of several pages
    elif not small and rng.random() < 0.002:
        limit, bits = 32768, 16
    told = {"contests": contests, "styles": styles, "limit": limit, "bits": bits, "salt": f"{rng.getrandbits(64):016x}"}
    return told if version is None else told | {"version": version}


def renewed(rng, small=False):
    """An election of version 2 that has a form in version 1."""
    return election(rng, small, [1]) | {"version": 2}


def spelled(rng, told):
    """A text of an election: mostly one that spells it, in an unusual way, or else a bad one."""
    parts = [(json.dumps(key), json.dumps(value)) for key, value in told.items()]
    rng.shuffle(parts)
    if rng.random() < 0.3:
        at = rng.randrange(len(parts))
        parts[at] = parts[at][0], rng.choice(BAD_VALUES)
    elif rng.random() < 0.1:
        return rng.choice(BAD_TEXTS)
    if rng.random() < 0.3:
        parts.insert(rng.randrange(len(parts)), (rng.choice(parts)[0], rng.choice(BAD_VALUES)))
    if rng.random() < 0.3:
        parts = [("".join(f"\\u{ord(c):04x}" if rng.random() < 0.2 else c for c in key[1:-1]).join('""'), value)
                 for key, value in parts]
    if rng.random() < 0.1:
        del parts[rng.randrange(len(parts))]
    if rng.random() < 0.1:
        parts.append((rng.choice(['"x"', '"version"', '""', '"bits "']), rng.choice(["1", "2", "3"])))
    space = [rng.choice(["", " ", "\n", "\t", "\r\n", "  ", "\f" if rng.random() < 0.02 else ""]) for _ in range(4)]
    text = space[0] + "{" + (space[1] + ",").join(key + ":" + space[2] + value for key, value in parts) + "}" + space[3]
    if rng.random() < 0.05:
        at = rng.randrange(len(text))
        text = text[:at] + rng.choice(["", ",", "}", "\0", "\xff", '"']) + text[at + 1:]
    return text


class Maker:
    """Makes the parts of one case, over one small pool of numbers."""

    def __init__(self, rng, told, crowded=False):
        self.rng, self.told = rng, told
        self.most = 64 if told.get("version") == 2 else 32
        numbers = [1, 2, 3, 2**64 - 1, 2**63, 2**32] + [rng.getrandbits(64) or 7 for _ in range(8)]
        numbers += [rng.randint(1, 40) for _ in range(6)]
        target, shift = rng.randrange(2 ** told["bits"]), 64 - told["bits"]
        for _ in range(60):  # numbers that have one home
            number = rng.getrandbits(64)
            if number and ((number ^ int(told["salt"], 16)) * GOLDEN % 2**64) >> shift == target:
                numbers.append(number)
        if crowded:
            numbers += [rng.getrandbits(64) or 9 for _ in range(2 * told["limit"])]
        self.numbers = numbers
        self.ballots = {}
        self.agree, self.share = 0.7, numbers  # how often a number keeps its ballot; the numbers of a medium's sets
        self.count = 2  # of the parts of a store

    def overlap(self):
        """Lets the sets of all media mostly agree, and mostly fit into one store."""
        rng, numbers = self.rng, sorted(set(self.numbers))
        self.agree = rng.choice([1, 1, 0.98, 0.9, 0.7])
        if rng.random() < 0.75:
            fitting = min(self.told["limit"], len(numbers))
            self.share = rng.sample(numbers, rng.choice([fitting, min(fitting + 1, len(numbers)), (fitting + 1) // 2]))

    def record(self, number=None, valid=False):
        """A record line: mostly of a ballot that came before for its number, so that it may be a duplicate."""
        rng = self.rng
        number = number or rng.choice(self.numbers)
        if number in self.ballots and rng.random() < self.agree:
            return self.ballots[number]
        style = rng.randint(1, len(self.told["styles"]))
        groups = []
        for k, contest in enumerate(self.told["contests"], 1):
            drawn = rng.choice([0, 1, 1, contest["allowed"], rng.randint(0, contest["choices"]), contest["choices"]])
            marks = sorted(rng.sample(range(1, contest["choices"] + 1), drawn))
            if k not in self.told["styles"][style - 1]:
                marks = []
            if not valid and rng.random() < 0.02:
                marks = sorted({*marks, rng.randint(1, self.most)})
            groups.append(",".join(map(str, marks)) or "-")
        if not valid and rng.random() < 0.01:
            groups.append("-")
        if not valid and rng.random() < 0.01:
            style = rng.choice([0, 254, 255, 256, len(self.told["styles"]) + 1])
        line = f"{number} {style} {'/'.join(groups)}"
        if valid:
            self.ballots.setdefault(number, line)
        return line

    def sheaf(self, most):
        """Record lines of a set."""
        count, share = self.rng.choice([0, 1, most, self.rng.randint(0, most)]), sorted(set(self.share))
        numbers = self.rng.sample(share, min(count, len(share)))
        return [self.record(number, valid=True) for number in numbers]

    def medium(self, torn=0.3, damaged=0.25, missing=0.15):
        rng, limit = self.rng, self.told["limit"]
        if rng.random() < missing:
            return None
        edits, other = [], self.sheaf(min(limit, 60))
        ballots = self.sheaf(min(limit, 60) + (rng.random() < 0.04))  # one more than the limit fits the cells
        if rng.random() < torn:
            edits += self.tears()
        while rng.random() < damaged:
            edits.append(rng.choice([["byte", rng.getrandbits(32), rng.randrange(256)], ["gate", rng.randrange(2), 0],
                                     ["byte", rng.randrange(32), rng.randrange(256)],
                                     ["cell", rng.getrandbits(16), rng.getrandbits(16)], ["empty", rng.getrandbits(16)],
                                     ["swap", rng.getrandbits(16), rng.getrandbits(16)],
                                     ["torn", rng.randrange(2), *self.range()],
                                     ["size", rng.choice([-1, 1, -2, 10, -10**6, rng.randint(-400, 400)])]]))
        return {"ballots": ballots, "other": other, "edits": edits}

    def tears(self):
        """The edits of a medium that was stopped on the way from one set to another."""
        rng = self.rng
        return rng.choice([[["gate", 1, 0]], [["gate", 1, rng.randrange(256)], ["torn", 1, *self.range()]],
                           [["other", 1], ["gate", 1, rng.randrange(256)]], [["other", 1]],
                           [["gate", 0, 0], ["other", 1], ["torn", 0, *self.range()]],
                           [["gate", 0, rng.randrange(256)], ["other", 1]],
                           [["gate", 0, rng.randrange(256)], ["gate", 1, rng.randrange(256)]]])

    def losses(self):
        """The edits of a medium that is lost: it is too small, or its gates are closed."""
        rng = self.rng
        return rng.choice([[["size", -10**9]], [["size", -rng.randint(1, 900)]],
                           [["gate", bank, rng.choice([0, 0x27, 0xA6, 255])] for bank in (0, 1)]])

    def old_medium(self, torn=0.3, strange=0.06):
        """A medium of version 1 under an election of version 2; the strange ones are none or damaged, or of another
        election or version."""
        rng, told = self.rng, self.medium(torn, 2 * strange, strange)
        if told:
            other = rng.choice([self.other_election(), {"version": 2}]) if rng.random() < strange else {}
            told["under"] = {"version": 1} | other
        return told

    def target(self, used=0.2):
        """A target for a migration: mostly one that is missing, too small, or of closed gates."""
        rng, told = self.rng, self.medium(0.3, 0.2, 0.3)
        if told and rng.random() >= used:
            told["under"] = {"version": 1} if rng.random() < 0.15 else {}
            told["edits"] += self.losses()
        elif told:
            told["edits"] += rng.choice([[], [["gate", rng.randrange(2), 0]], [["size", 1]],
                                         [["size", rng.randint(1, 900)]]])
        return told

    def further(self, torn=0.2, strange=0.03, targets=0.0):
        """Further media for all names; the strange ones are damaged, empty, or of another election or version. So many
        of them are targets for a migration."""
        rng, media = self.rng, []
        for name in MORE if self.told["limit"] < 1000 else MORE[:1]:  # the largest have 40 million bytes
            if rng.random() < targets:
                media += [{"name": name} | told for told in [self.target()] if told]
                continue
            told = self.medium(torn, strange, strange)
            if told:
                under = self.other_election() if rng.random() < strange else {}
                told["edits"] += [["size", -10**9]] if rng.random() < strange else []  # an empty file
                media.append({"name": name, "under": under} | told)
        return media

    def twin(self, medium, torn=0.35, lost=0.25, strange=0.08):
        """A disk beside this one, mostly with the same set or as another stop left it; the strange ones are damaged,
        too large, or of another election."""
        rng, told = self.rng, self.medium(torn, strange, lost / 2)
        if told and medium and rng.random() < 0.75:
            names = ["ballots", "other"] if rng.random() < 0.8 else ["other", "ballots"]
            told |= {name: list(medium[of]) for name, of in zip(("ballots", "other"), names)}
        if told and rng.random() < lost / 2:
            told["edits"] += self.losses()
        elif told and rng.random() < strange:
            told |= rng.choice([{"under": self.other_election()},
                                {"edits": told["edits"] + [["size", rng.choice([1, 2, rng.randint(1, 900)])]]}])
        return told

    def pair(self):
        """A medium, and disks beside it for all names."""
        names = MORE if self.told["limit"] < 1000 else MORE[:1]
        medium = self.twin(None)
        beside = [{"name": name} | told for name in names for told in [self.twin(medium)] if told]
        return medium, beside

    def parts(self, strange=0.25, torn=0.6):
        """The parts of a store. So many stores have one that holds numbers of others, or is damaged, missing, or of
        another election, and so many parts of a store are torn."""
        rng, media, numbers = self.rng, [], self.share
        self.count = rng.choice([2, 2, 4, 8]) if self.told["limit"] < 1000 else 2
        odd = rng.randrange(self.count) if rng.random() < strange else None
        for part in range(self.count):
            kind = rng.choice(["foreign", "foreign", "damaged", "other"]) if part == odd else None
            self.share = [number for number in numbers if part_of(self.count, number) == part or kind == "foreign"]
            told = self.medium(torn / self.count, 0.5 * (kind == "damaged"), 0.3 * (kind == "damaged"))
            if told:
                told["under"] = self.other_election() if kind == "other" else {}
            media.append(told)
        self.share = numbers
        return media[0], [{"name": name} | told for name, told in zip(MORE, media[1:]) if told]

    def media(self, commands, migrates):
        """The medium and the further media of a case with these commands."""
        if "merge" in commands:
            self.overlap()
        if migrates:
            return self.old_medium(), self.further(targets=0.7)
        if "twin" in commands and self.rng.random() < 0.9:
            return self.pair()
        if "part" in commands and self.rng.random() < 0.9:
            return self.parts()
        if FURTHER.keys().isdisjoint(commands):
            return self.medium(), []
        return self.medium(0.2, 0.05, 0.1), self.further()

    def other_election(self):
        """What another election has otherwise, of the same contests."""
        rng, told = self.rng, self.told
        limit, most = told["limit"], max(contest["choices"] for contest in told["contests"])
        if rng.random() < 0.5 and len(told["contests"]) <= 16 and most <= 32:
            return {"version": 3 - told.get("version", 1)}
        return rng.choice([{"salt": f"{rng.getrandbits(64):016x}"}, {"limit": limit + 1 if limit < 32768 else 1},
                           {"bits": told["bits"] - 1 if told["bits"] else 1}])

    def range(self):
        return self.rng.getrandbits(20), self.rng.choice([1, 8, 64, 512, 4096]), self.rng.getrandbits(30)

    def hostile(self, line):
        rng = self.rng
        if rng.random() < 0.5 or not line:
            return rng.choice(BAD_LINES)
        at = rng.randrange(len(line))
        return line[:at] + rng.choice(["", " ", "0", "\r", ",", "/", "-", "9", line[at] * 2]) + line[at + 1:]

    def script(self, phases, crowded=False, badness=0.03):
        """The lines of a session's script; the last is empty, but where the last line has no end."""
        rng, lines = self.rng, []
        for _ in range(phases):
            kind = rng.choice(["cast", "cast", "cast", "withdraw", "withdraw", "find"])
            tabs = rng.choice([1, 1, 1, 2, 2, 3, 4, 8, 64]) if not crowded else rng.randint(2, 8)
            lines.append(f"open {kind} {tabs}")
            items = rng.choice([0, 1, 2, 5, 12, rng.randint(0, 40)]) if not crowded else rng.randint(60, 600)
            for _ in range(items):
                tab = rng.randint(1, tabs + (rng.random() < 0.02))
                what = self.record(valid=rng.random() < 0.5) if kind == "cast" else rng.choice(self.numbers)
                lines.append(f"{kind} {tab} {what}")
            if rng.random() < 0.95:
                lines.append("close")
            lines += rng.choices(["checkpoint", "tally", "export"], k=rng.choice([0, 1, 1, 2]))
        for at in range(len(lines)):
            if rng.random() < badness:
                lines.insert(at, self.hostile(rng.choice(lines)))
        return lines + [""] if rng.random() < 0.9 else lines

    def replay(self):
        rng, kind, tabs = self.rng, self.rng.choice(["cast", "withdraw"]), self.rng.choice([1, 2, 2, 3, 4])
        start = rng.sample(sorted(set(self.numbers)), rng.randint(0, min(self.told["limit"], 8)))
        lines = [" ".join(["start", *map(str, start)]), f"{kind} {tabs}"]
        for tab in range(1, tabs + 1):
            drawn = rng.choices(self.numbers + 3 * start, k=rng.randint(0, 6))
            lines.append(" ".join(map(str, ["list", tab, *drawn])))
        for _ in range(rng.randint(0, 2)):
            lines.append(" ".join(["steps", *(str(rng.randint(1, tabs)) for _ in range(rng.randint(0, 60)))]))
        if rng.random() < 0.1:
            lines.insert(rng.randint(0, len(lines)), self.hostile(rng.choice(lines)))
        return lines + [""]

    def run(self, command, first=False):
        rng = self.rng
        words, script = ["MEDIUM", "ELECTION", command], []
        if command == "session":
            script = self.script(rng.choice([0, 1, 2, 3, 5]), badness=rng.choice([0, 0.02, 0.1, 0.5]))
        elif command in ("sample", "compare"):
            words.append("".join(rng.choices("0123456789", k=rng.choice([1, 2, 8, 64]))))
            words.append(str(rng.choice([1, 2, 3, 5, 32768])))
            if command == "compare":
                records = [self.record(valid=rng.random() < 0.7) for _ in range(rng.randint(0, 12))]
                script = [self.hostile(line) if rng.random() < 0.1 else line for line in records] + [""]
        elif command == "build":
            script = self.sheaf(min(self.told["limit"], 30)) + [""]
            if rng.random() < 0.3:
                at = rng.randrange(len(script))
                script.insert(at, self.hostile(self.record()) if rng.random() < 0.5 else self.record())
        elif command == "large":
            # of several tabulators only where no ballot can be refused as full
            words += ["--seed", str(rng.randint(1, 2**32 - 1)), "--count", str(rng.randint(1, 80)), "--tabs",
                      str(rng.choice([1, 2, 8, 64]) if first else 1)]
        elif command == "replay":
            script = self.replay()
        elif command in FURTHER:
            return self.join(command)
        elif command == "words":
            words = self.words()
        elif command == "odd":
            return self.odd()
        return {"words": words, "script": script, "output": "pipe"}

    def join(self, command):
        """A run over several media, mostly under words that have its form."""
        rng = self.rng
        more = rng.sample(MORE, rng.choice(FURTHER[command]))
        if command == "part" and rng.random() < 0.93:
            more = MORE[:self.count - 1]
        words = ["MEDIUM", "ELECTION", command, *more]
        one = command != "merge"  # which has a fixed number of words, so that another mostly takes the place of one
        if rng.random() < (0.03 if one else 0.1):  # a further medium and the target change places
            words[0], words[3] = words[3], words[0]
        if rng.random() < 0.1 and command == "merge" and len(more) < 8:  # one medium under two names
            words.append("./" + rng.choice(words[3:]))
        elif rng.random() < 0.1 and one:  # and under another one
            at = rng.randrange(3, len(words))
            words[at] = "./" + words[at]
        if rng.random() < 0.15:
            odd = rng.choice(["", "-", "-MORE1", "--help", words[0], *words[3:5], ".", "none", "none/x", "ELECTION",
                              "ELECTION/x", "election.json", "MORE1/x"])
            at = rng.randint(3, len(words))
            words[at:at + (one and rng.random() < 0.7)] = [odd]
        elif rng.random() < 0.03:
            words[3:] = rng.choice([[], MORE, MORE + ["MORE9"]])
        script = ["nobody reads this", ""]
        if command in ("twin", "part"):
            script = self.script(rng.choice([0, 0, 1, 1, 2, 3]), badness=rng.choice([0, 0.02, 0.1]))
        output = "full" if rng.random() < 0.05 else "pipe"
        return {"words": words, "script": script, "output": output}

    def words(self):
        rng = self.rng
        pool = ["MEDIUM", "ELECTION", "init", "session", "audit", "sample", "compare", "build", "large", "replay",
                "merge", "migrate", "twin", "part", "", "-", "--help", "--seed", "1", "01", "--count", "--tabs", "65",
                "0", "32769", "4294967296", "1" * 65, "x", "--seed=1"]
        whole = rng.choice([["MEDIUM", "ELECTION", "large", "--seed", "1", "--count", "5", "--tabs", "1"],
                            ["MEDIUM", "ELECTION", "sample", "123", "2"], ["MEDIUM", "ELECTION", "audit"],
                            *(["MEDIUM", "ELECTION", command, "MORE1"] for command in FURTHER)])
        if rng.random() < 0.3:
            return rng.choices(pool, k=rng.randint(0, 5))
        at = rng.randrange(len(whole))
        return whole[:at] + rng.choices(pool, k=rng.randint(0, 2)) + whole[at + 1:]

    def odd(self):
        """Files that are missing or are none, and an output that takes nothing."""
        rng = self.rng
        command = rng.choice(["init", "session", "audit", "build"])
        script, output = [], "pipe"
        words = rng.choice([["MEDIUM", "none.json", command], ["MEDIUM", ".", command], [".", "ELECTION", command],
                            ["ELECTION/x", "ELECTION", command], ["none/x", "ELECTION", command],
                            ["MEDIUM", "ELECTION", command]])
        if words == ["MEDIUM", "ELECTION", command]:
            output, script = "full", rng.choice([["export", ""], ["checkpoint", "export", ""], []])
        return {"words": words, "script": script, "output": output}


def onto_targets(rng, runs):
    """Lets runs that come after a migration mostly have its target as their medium, those after a pair its second disk,
    as the second disk or alone, and those after a session of parts one of these alone."""
    target = None
    for words in (run["words"] for run in runs):
        if words[2:3] in (["migrate"], ["twin"]):
            if words[2] == "twin" and target and target != words[0] and len(words) == 4 and rng.random() < 0.6:
                words[3] = target
            target = words[3] if words[3:] and words[3] in MORE else target
        elif words[2:3] == ["part"]:
            target = rng.choice([None, *(word for word in words[3:] if word in MORE)])
        elif target and words[:2] == ["MEDIUM", "ELECTION"] and FURTHER.keys().isdisjoint(words):
            words[0] = target if rng.random() < 0.6 else words[0]


def spare_election(runs):
    """Puts a file that is missing in the place of the election's where that stands as a medium: no peer guards it, and
    `check_program` tries each spelling of it."""
    for words in (run["words"] for run in runs):
        words[:] = ["none" if at != 1 and NAMES.get(word, word) == NAMES["ELECTION"] else word
                    for at, word in enumerate(words)]


def case(rng):
    crowded = rng.random() < 0.03
    commands = rng.choices(list(COMMANDS), list(COMMANDS.values()), k=rng.choice([1, 1, 2, 3]))
    migrates = "migrate" in commands and rng.random() < 0.93
    told = renewed(rng) if migrates else election(rng)
    if crowded:
        told |= {"limit": rng.randint(50, 400), "bits": rng.choice([0, 1, 3, 5, 8])}
    text = spelled(rng, told) if rng.random() < 0.12 else None
    maker = Maker(rng, told, crowded)
    if text is not None:
        runs = [maker.run("migrate" if migrates else rng.choice(["init", "build", "audit", "replay"]))]
        medium = maker.old_medium() if migrates else maker.medium()
        spare_election(runs)
        return {"election": told, "text": text, "medium": medium, "more": [], "runs": runs}
    if "part" in commands and not migrates:  # a session on one part alone mostly makes it none
        commands = ["part" if command == "session" and rng.random() < 0.7 else command for command in commands]
    (medium, more), runs = maker.media(commands, migrates), []
    if migrates:
        commands += rng.choices(["audit", "session", "migrate"], k=rng.choice([0, 1, 2]))
    elif "twin" in commands:
        commands += rng.choices(["audit", "session", "twin"], k=rng.choice([0, 1, 2]))
    elif "part" in commands:
        commands += rng.choices(["audit", "session", "part", "part"], k=rng.choice([0, 1, 2]))
    elif medium is None and rng.random() < 0.8:
        runs.append(maker.run("init"))
        if rng.random() < 0.1:
            runs.append(maker.run("large", first=True))
    if crowded:
        on = ["part", *MORE[:maker.count - 1]] if "part" in commands else ["session"]
        runs.append({"words": ["MEDIUM", "ELECTION", *on], "script": maker.script(3, True, 0), "output": "pipe"})
    runs += [maker.run(command) for command in commands]
    onto_targets(rng, runs)
    spare_election(runs)
    words = [word for run in runs for word in run["words"]]
    more = [told for told in more if any(told["name"] in word for word in words)]
    return {"election": told, "text": text, "medium": medium, "more": more, "runs": runs}


def text_of(case):
    """The bytes of the election's file."""
    return (json.dumps(case["election"]) if case["text"] is None else case["text"]).encode("latin-1")


def name_of(word):
    """The path that a word stands for."""
    return "/".join(NAMES.get(part, part) for part in word.split("/"))


def medium_of(case):
    """The bytes of the medium, or None."""
    told = case["medium"]
    return told and bytes_of(case["election"] | told.get("under", {}), told)


def further_of(case):
    """The bytes of each further medium that is there, by the names of their files."""
    return {NAMES[told["name"]]: bytes_of(case["election"] | told.get("under", {}), told)
            for told in case.get("more", [])}


def bytes_of(election, told):
    """The bytes of a medium."""
    rules = Rules(json.dumps(election).encode())
    image, other = (rules.image({b[0]: b for b in map(rules.ballot, map(str.encode, told[name])) if b})
                    for name in ("ballots", "other"))
    width, cells = rules.election.cell_format().size, rules.election.cell_count()
    data = bytearray(image * 2 + b"\xa7\xa7")

    def cell(which):  # of both banks
        bank, at = divmod(which % (2 * cells), cells)
        start = bank * len(image) + 32 + at * width
        return slice(start, start + width)

    for kind, *given in told["edits"]:
        if kind == "byte":
            data[given[0] % len(data)] = given[1]
        elif kind == "gate":
            data[2 * len(image) + given[0]:2 * len(image) + given[0] + 1] = bytes([given[1]])
        elif kind == "other":
            data[given[0] * len(image):(given[0] + 1) * len(image)] = other
        elif kind == "torn":
            bank, start, length, rest = given
            at = start % len(image)
            to = min(at + length, len(image))
            rubbish = bytes([rest % 256]) * (to - at)
            data[bank * len(image) + at:bank * len(image) + to] = other[at:to] if rest % 3 else rubbish
        elif kind in ("cell", "empty", "swap"):
            first, second = cell(given[0]), cell(given[-1])
            data[first], data[second] = {"cell": (data[second], data[second]), "empty": (bytes(width), bytes(width)),
                                         "swap": (data[second], data[first])}[kind]
        elif kind == "size":
            data = data[:max(0, len(data) + given[0])].ljust(len(data) + given[0], b"\xa7")
            break
    return bytes(data)
