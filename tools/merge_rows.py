"""The cases of `merge` for `check_program`."""

import itertools
import json
import os
import random
import subprocess
import sys
from pathlib import Path

from version_rows import LIMITS, image, plain

OK = (0, "")
USAGE = (2, "usage")
BAD_ELECTION = (3, "bad election")
DISK_FAULT = (5, "disk fault")
WRITE_FAULT = (7, "write fault")
NO_STORE = (9, "no store")
OTHER_ELECTION = (11, "other election")
OPEN_GATES = b"\xa7\xa7"


def fault_at(index):
    return (17, f"disk fault at medium {index}")


def bad_medium(index, why):
    return (20, f"medium {index} {why}")


def conflict(number):
    return (21, f"conflict {number}")


def merge_of(count):
    return (22, f"merge of {count}")


def damaged(cell):
    return (10, f"damaged cell {cell}")


class Media:
    """The table of rows, and the media of one election in the table's room."""

    def __init__(self, table, program, parts):
        self.table, self.program, self.parts = table, program, parts
        self.election = table.file(f"merged{len(list(table.room.iterdir()))}.json", json.dumps(parts).encode())

    def medium(self, *lines):
        """The medium of the ballots of some record lines."""
        return image(self.parts, lines) * 2 + OPEN_GATES

    def merge(self, name, target, more, ending, after=None, output=b""):
        """A merge of media with these bytes, of which the target has others then, if they are told."""
        table = self.table
        place = table.file("target", target)
        places = [table.file(f"more{k}", medium) for k, medium in enumerate(more, 1)]
        table.row(name, [place, self.election, "merge", *places], ending, b"nobody reads this", output)
        found = [Path(one).read_bytes() for one in (place, *places)]
        table.same(f"the media after {name}", found, [target if after is None else after, *more])

    def union(self, name, target, more, lines):
        """A merge that comes to the medium of these lines."""
        told = b"merged %d\n" % len(lines)
        self.merge(name, target, more, OK, self.medium(*lines), told)

    def exports(self, name, target, more):
        """The record lines of the export of a merge are those of all exports, each once and in order."""
        table = self.table
        places = [table.file(f"apart{k}", medium) for k, medium in enumerate((target, *more))]
        env = {"E": self.election}
        media = " ".join(Path(place).name for place in places)
        table.shell(f"the exports before {name}",
                    f'for m in {media}; do echo export | "$P" $m "$E" session >$m.export || exit; done; '
                    f"tail -qn +2 $(printf '%s.export ' {media}) | LC_ALL=C sort -n -u >sorted", OK, env=env)
        first, *rest = media.split(" ")
        table.shell(f"the export after {name}",
                    f'"$P" {first} "$E" merge {" ".join(rest)} >told && '
                    f'echo export | "$P" {first} "$E" session >all && '
                    "tail -n +2 all | cmp - sorted && test \"$(cat told)\" = \"merged $(wc -l <sorted | tr -d ' ')\"",
                    OK, env=env)
        second = [sys.executable, Path(__file__).resolve().parent / "check_medium.py", places[0], self.election]
        theirs = subprocess.run(second, capture_output=True)
        count = len((table.room / "sorted").read_bytes().splitlines())
        table.same(f"a second opinion on {name}", (theirs.returncode, theirs.stdout), (0, b"canonical %d\n" % count))


def merge_rows(table, program, examples):
    parts = json.loads((examples / "election.json").read_text())
    media = Media(table, program, parts)
    for rows in (union_rows, refusal_rows, dispute_rows, too_many_rows, torn_rows, word_rows, name_rows, lock_rows):
        rows(media)
    order_rows(table, program, json.loads((examples / "precinct.json").read_text()))
    for version, (contests, choices, _) in LIMITS.items():
        wide = plain(contests, choices, version, allowed=2, limit=32, bits=4, salt="0123456789abcdef")
        wide_rows(Media(table, program, wide), contests, choices)
    full_rows(Media(table, program, plain(2, 4, 1, limit=32768, bits=16)))


THREE = ("9 1 1/-", "14 1 -/2", "1 1 2/1,3")
FOUR = ("22 1 -/-", *THREE)
EIGHT = tuple(f"{number} 1 -/-" for number in (1, 2, 6, 9, 14, 17, 22, 2**64 - 1))


def union_rows(media):
    """Media whose ballots agree."""
    three, two, none = media.medium(*THREE), media.medium("22 1 -/-", "9 1 1/-"), media.medium()
    media.union("a merge of three and two ballots", three, [two], FOUR)
    media.union("a merge of two and three ballots", two, [three], FOUR)
    media.union("a merge with no ballots", three, [none], THREE)
    media.union("a merge of no ballots with three", none, [three], THREE)
    media.union("a merge of no ballots", none, [none, none], ())
    media.union("a merge with the same ballots", three, [three, three], THREE)
    media.union("the same merge again", media.medium(*FOUR), [two], FOUR)
    eight = [media.medium(line) for line in EIGHT]
    media.union("a merge of eight media with none", none, eight, EIGHT)
    media.union("a merge of eight media, each with one more", eight[0], eight[:0:-1] + [none], EIGHT)
    media.union("a merge that is full", media.medium(*EIGHT[:5]), [media.medium(*EIGHT[3:])], EIGHT)
    table = media.table
    table.file("target", three)
    table.file("more1", two)
    table.shell("a merge told to a full device", '"$P" target "$E" merge more1 >/dev/full', WRITE_FAULT)
    table.same("the medium after a merge that was not told", (table.room / "target").read_bytes(), media.medium(*FOUR))


def refusal_rows(media):
    """Media that are no store of the election."""
    three, two = media.medium(*THREE), media.medium("22 1 -/-", "9 1 1/-")
    wrong = {"of too few bytes": (three[:-1], "no store", NO_STORE),
             "of too many bytes": (three + b"\0", "no store", NO_STORE),
             "with closed gates": (three[:-2] + bytes(2), "no store", NO_STORE),
             "without a byte": (b"", "no store", NO_STORE),
             "of another salt": (three[:31] + b"\1" + three[32:], "other election", OTHER_ELECTION),
             "of another version": (three[:9] + b"\2" + three[10:], "other election", OTHER_ELECTION),
             "with a wrong style": (three[:108] + b"\2" + three[109:], "damaged cell 4", damaged(4)),
             "with a gap": (three[:100] + bytes(17) + three[117:], "damaged cell 6", damaged(6))}
    for name, (medium, why, ending) in wrong.items():
        media.merge(f"a merge into a medium {name}", medium, [two], ending)
        media.merge(f"a merge with a medium {name}", three, [medium], bad_medium(1, why))
        media.merge(f"a merge with a medium {name} as the third of four", three, [two, two, medium, b""],
                    bad_medium(3, why))
        media.merge(f"a merge with a medium {name} behind a dispute", three, [media.medium("9 1 2/-"), medium],
                    bad_medium(2, why))
    media.merge("a merge of two media that are no store", b"", [b""], NO_STORE)
    table = media.table
    path = table.file("target", three)
    table.row("a merge with a medium that is missing", [path, media.election, "merge", "missing.medium"],
              bad_medium(1, "no store"))
    table.row("a merge into a medium that is missing", ["missing.medium", media.election, "merge", path], NO_STORE)
    table.same("that no medium was made", (table.room / "missing.medium").exists(), False)
    table.row("a merge with a folder", [path, media.election, "merge", "."], fault_at(1))
    table.row("a merge with a medium and a folder",
              [path, media.election, "merge", table.file("more1", two), "."], fault_at(2))
    table.row("a merge into a folder", [".", media.election, "merge", path], DISK_FAULT)
    table.row("a merge under no election", [path, path, "merge", "more1"], BAD_ELECTION)


def dispute_rows(media):
    """Media that hold different ballots of one number: the least such number is told."""
    three = media.medium(*THREE)
    media.merge("a dispute", three, [media.medium("9 1 2/-", "14 1 -/1")], conflict(9))
    media.merge("a dispute from the other side", media.medium("9 1 2/-", "14 1 -/1"), [three], conflict(9))
    media.merge("a dispute of the greatest number", media.medium(*EIGHT), [media.medium(f"{2**64 - 1} 1 1/-")],
                conflict(2**64 - 1))
    apart = [media.medium("14 1 -/1"), media.medium("9 1 2/-"), media.medium("5 1 -/-")]
    for order in itertools.permutations(apart):
        media.merge("disputes in two media", three, list(order), conflict(9))
    late = [media.medium("5 1 1/-"), media.medium("5 1 2/-"), media.medium("14 1 -/1")]
    for order in itertools.permutations(late):
        media.merge("a dispute between two further media", three, list(order), conflict(5))
    agreed = [media.medium(f"{k} 1 -/-") for k in range(20, 27)]
    media.merge("a dispute in the last medium", three, [*agreed, media.medium("1 1 -/-")], conflict(1))


def too_many_rows(media):
    """Unions with more ballots than the limit."""
    eight = media.medium(*EIGHT)
    media.merge("a union of nine", eight, [media.medium("5 1 -/-")], merge_of(9))
    media.merge("a union of nine from none", media.medium(), [media.medium("5 1 -/-"), eight], merge_of(9))
    both = [media.medium(*(f"{at + k} 1 -/-" for k in range(8))) for at in range(100, 170, 8)]
    media.merge("a union of seventy-two", both[0], both[1:], merge_of(72))
    media.merge("a dispute in a union of nine", eight, [media.medium("5 1 -/-", "17 1 1/-")], conflict(17))


def torn_rows(media):
    """Media whose banks differ, as a stop leaves them."""
    three, two = media.medium(*THREE), media.medium("22 1 -/-", "9 1 1/-")
    bank = (len(three) - 2) // 2
    torn = {"behind bank A": three[:bank] + two[bank:-2] + b"\xa7\0",
            "in bank A": b"\xff" * bank + three[bank:-2] + b"\0\xa7",
            "in both, read from A": three[:bank] + b"\x3c" * bank + OPEN_GATES, "at gate B": three[:-1] + b"\x3c"}
    for name, medium in torn.items():
        media.union(f"a merge into a medium torn {name}", medium, [two], FOUR)
        media.union(f"a merge with a medium torn {name}", two, [medium], FOUR)
        media.merge(f"a dispute with a medium torn {name}", medium, [media.medium("9 1 2/-")], conflict(9), three)
        media.merge(f"a target torn {name} beside no store", medium, [b""], bad_medium(1, "no store"), three)
    eight = media.medium(*EIGHT)
    media.merge("too many in a torn medium", eight[:-1] + b"\0", [media.medium("5 1 -/-")], merge_of(9), eight)


def word_rows(media):
    """The words behind `merge`."""
    table, election = media.table, media.election
    media.table.file("m", media.medium())
    for more in ([], [f"a{k}" for k in range(9)], ["m"], ["a", "m"], ["a", "a"], ["a", "b", "a"], [""], ["a", ""],
                 ["-a"], ["a", "-"], ["a", "--help"], ["-"]):
        table.row(f"merge with the words {more}", ["m", election, "merge", *more], USAGE)
    nine = [f"a{k}" for k in range(9)]
    table.row("nine media that are missing, under no election", ["m", "missing.json", "merge", *nine], USAGE)
    table.row("a merge into a medium with a dash", ["-m", election, "merge", "a"], USAGE)
    for more in (["a"], ["a b", "=", "merge"], [f"a{k}" for k in range(8)], ["./m2", "m2"]):
        table.row(f"merge with the words {more}, which are missing", ["m", election, "merge", *more],
                  bad_medium(1, "no store"))
    table.same("the medium after these words", (table.room / "m").read_bytes(), media.medium())


def name_rows(media):
    """One file under two names."""
    table, election = media.table, media.election
    three, two = media.medium(*THREE), media.medium("22 1 -/-", "9 1 1/-")
    table.file("named", three)
    table.file("other", two)
    for link, name in ((os.symlink, "soft"), (os.link, "hard")):
        with_name = f"named.{name}"
        link(table.room / "named", table.room / with_name)
        link(table.room / "other", table.room / f"other.{name}")
        for words in (["named", with_name], [with_name, "named"], ["named", "./named"]):
            table.row(f"a merge with itself as {words}", [words[0], election, "merge", words[1]], fault_at(1))
        table.row(f"a merge with itself behind another, by a {name} link",
                  ["named", election, "merge", "other", with_name], fault_at(2))
        table.same(f"the medium after a merge with itself by a {name} link", (table.room / "named").read_bytes(), three)
    for more in (["other", "other.soft"], ["other.hard", "other"], ["./other", "other", "other.soft", "other.hard"]):
        table.file("target", three)
        table.row(f"one further medium as {more}", ["target", election, "merge", *more], OK, output=b"merged 4\n")
        found = (table.room / "target").read_bytes()
        table.same(f"the medium after one further medium as {more}", found, media.medium(*FOUR))
    table.same("the further medium under its names", (table.room / "other").read_bytes(), two)


def lock_rows(media):
    """Media that another run holds. Only the target is needed alone."""
    table, election, program = media.table, media.election, media.program
    table.file("target", media.medium(*THREE))
    table.file("held", media.medium("22 1 -/-", "9 1 1/-"))
    session = [program, "held", election, "session"]
    with subprocess.Popen(session, stdin=subprocess.PIPE, stdout=subprocess.PIPE, cwd=table.room) as run:
        run.stdin.write(b"open find 1\n")
        run.stdin.flush()
        table.same("a session that holds a medium", run.stdout.readline(), b"finding 1\n")
        table.row("a merge with a medium in a session", ["target", election, "merge", "held"], fault_at(1))
        table.row("a merge into a medium in a session", ["held", election, "merge", "target"], DISK_FAULT)
        run.communicate(b"close\n", timeout=20)
    table.same("the target beside a session", (table.room / "target").read_bytes(), media.medium(*THREE))
    if os.geteuid() == 0:
        os.chmod(table.room / "held", 0o444)
        table.row("a merge with a medium that may only be read", ["target", election, "merge", "held"], OK,
                  output=b"merged 4\n")
        os.chmod(table.room / "held", 0o644)


def order_rows(table, program, parts):
    """Three media of one precinct, in all six orders: the targets are the same, to the byte."""
    chance, media = random.Random(17), Media(table, program, parts)
    lines = []
    for number in {chance.randrange(1, 2**64) for _ in range(900)}:
        style = chance.choice((1, 2))
        nine = ",".join(map(str, sorted(chance.sample(range(1, 10), chance.randrange(1, 4)))))
        last = chance.choice(("-", "1", "2")) if style == 1 else "-"
        lines.append(f"{number} {style} {chance.choice(('-', '1', '4'))}/{nine}/{last}")
    share = [lines[:400], lines[300:700], lines[500:] + lines[:20]]
    for order in itertools.permutations(range(3)):
        first, *rest = (media.medium(*share[k]) for k in order)
        media.union(f"three media of a precinct in the order {order}", first, rest, lines)
    first, *rest = (media.medium(*one) for one in share)
    media.exports("a merge of three media of a precinct", first, rest)
    other = f"{min(int(line.split()[0]) for line in lines[:400])} 1 2/-/-"
    media.merge("a precinct in dispute", first, [rest[0], media.medium(other)], conflict(other.split()[0]))


def wide_rows(media, contests, choices):
    """A union under the widest election of a version."""
    groups = ["-"] * (contests - 1)
    lines = [f"{k * 0x9E3779B97F4A7C15 % 2**64} 1 " + "/".join([*groups, str(1 + k % choices)]) for k in range(1, 33)]
    first, second = media.medium(*lines[:20]), media.medium(*lines[10:])
    media.union(f"a union of {contests} contests of {choices} choices", first, [second], lines)
    number = lines[12].split()[0]
    other = media.medium(f"{number} 1 " + "/".join([*groups, "-"]))
    media.merge(f"a dispute in the last of {contests} contests", first, [other], conflict(number))
    media.exports(f"a merge of {contests} contests of {choices} choices", first, [second])


def full_rows(media):
    """Eight media that fill one, and then one ballot more."""
    lines = [f"{k * 0x9E3779B97F4A7C15 % 2**64} 1 {k % 5 or '-'}/{k % 3 or '-'}" for k in range(1, 32769)]
    eight = [media.medium(*lines[at:at + 4096]) for at in range(0, 32768, 4096)]
    media.union("a merge of eight media of 4,096 ballots", media.medium(), eight, lines)
    media.merge("one ballot too many", media.medium("7 1 -/-"), eight, merge_of(32769))
    media.union("eight media of which one has its ballots twice", media.medium(*lines[:9]), eight, lines)
