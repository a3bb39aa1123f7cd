"""The cases of `part` for `check_program`."""

import fcntl
import itertools
import json
import os
import resource
import shutil
import subprocess
import sys
import tempfile
from pathlib import Path
from typing import NamedTuple

from election_rows import opinion
from held_runs import beside, locks_of, waiting
from part_kills import killed_rows
from part_media import COUNTS, GREATEST, SECOND_OPINION, least, medium_of, misplaced, number_of, part_of_further, shares
from twin_rows import torn
from version_rows import plain, tally, text

OK = (0, "")
USAGE = (2, "usage")
BAD_ELECTION = (3, "bad election")
LONG_SCRIPT = (4, "script too long")
DISK_FAULT = (5, "disk fault")
ELECTION_FAULT = (6, "election read fault")
SCRIPT_FAULT = (6, "script read fault")
WRITE_FAULT = (7, "write fault")
NO_STORE = (9, "no store")
OTHER_ELECTION = (11, "other election")
SCRIPT_LIMIT = 67_108_864
NOBODY = 65534
ASK = b"open find 1\nclose\ncheckpoint\nexport\n"


class Media:
    """The table of rows, and the media of a store of one election in so many parts."""

    made = itertools.count()

    def __init__(self, table, program, parts, count, folder):
        self.table, self.program, self.parts, self.count, self.folder = table, program, parts, count, Path(folder)
        self.election = str(self.folder / f"parted{next(Media.made)}.json")
        Path(self.election).write_text(json.dumps(parts))
        self.names = [f"part{index}" for index in range(count)]
        self.paths = [self.folder / name for name in self.names]
        self.words = self.words_of(self.paths)

    def words_of(self, files):
        first, *more = map(str, files)
        return [first, self.election, "part", *more]

    def medium(self, *lines):
        """The medium of the ballots of some record lines."""
        return medium_of(self.parts, lines)

    def media(self, lines):
        """The media of the parts of these ballots."""
        return [self.medium(*share) for share in shares(self.count, lines)]

    def lay(self, media):
        """Lays the media, of which each may be missing."""
        for path, data in zip(self.paths, media, strict=True):
            path.unlink(missing_ok=True)
            if data is not None:
                path.write_bytes(data)

    def stands(self, name, media):
        """Compares what the media have after a run."""
        for path, data in zip(self.paths, media, strict=True):
            found = path.read_bytes() if path.exists() else None
            self.table.same(f"{path.name} of {self.count} after {name}", found, data)

    def refused(self, name, media, ending):
        """Media that come to this end, and stay as they are."""
        self.lay(media)
        self.table.row(name, self.words, ending, ASK)
        self.stands(name, media)

    def ran(self, name, media, lines, script=b"", replies=b"", ending=OK):
        """A session on these media, which then are those of these ballots."""
        self.lay(media)
        self.table.row(f"{name}, in {self.count} parts", self.words, ending, script, replies)
        self.stands(name, self.media(lines))

    def exported(self, lines):
        """The replies to an export."""
        return text(f"export {len(lines)}", *sorted(lines, key=number_of))

    def exports(self, name, lines):
        """The record lines of the parts, one after the other, are those of these ballots; a merge of all has them; and
        each part is canonical, as the program and a second one say."""
        table, told = self.table, []
        for path, share in zip(self.paths, shares(self.count, lines)):
            done = subprocess.run([self.program, path, self.election, "session"], input=b"export", capture_output=True)
            told += done.stdout.decode().splitlines()[1:]
            table.row(f"an audit of {path.name} after {name}", [str(path), self.election, "audit"], OK,
                      output=b"canonical %d\n" % len(share))
        table.same(f"the exports of {self.count} parts after {name}", told, sorted(lines, key=number_of))
        second = [sys.executable, SECOND_OPINION, self.paths[0], self.election, *self.paths[1:]]
        done = subprocess.run(second, capture_output=True)
        table.same(f"a second opinion after {name}", (done.returncode, done.stdout), (0, b"parts %d\n" % len(lines)))
        if len(lines) <= self.parts["limit"]:
            one = self.folder / "one.medium"
            one.write_bytes(self.medium())
            table.row(f"a merge of {self.count} parts after {name}", [str(one), self.election, "merge",
                      *map(str, self.paths)], OK, output=b"merged %d\n" % len(lines))
            table.same(f"the merge of {self.count} parts after {name}", one.read_bytes(), self.medium(*lines))


def part_rows(table, program, examples, broken_off, kills):
    shared = "/dev/shm" if os.access("/dev/shm", os.W_OK) else None
    example, precinct = (json.loads((examples / f"{name}.json").read_text()) for name in ("election", "precinct"))
    with tempfile.TemporaryDirectory(dir=shared) as folder:
        kind_rows([Media(table, program, example, count, folder) for count in COUNTS])
        many = plain(2, 4, 1, limit=150, bits=8, salt="0123456789abcdef")
        killed_rows([Media(table, program, many, count, folder) for count in (2, 8)], kills)
        full_rows(Media(table, program, plain(1, 2, 1, limit=32768, bits=16), 8, folder))
    two, four, eight = (Media(table, program, example, count, table.room) for count in COUNTS)
    example_rows(two)
    session_rows(two, broken_off)
    for media in (two, four, eight):
        for rows in (phase_rows, limit_rows, word_rows, lock_rows, held_rows):
            rows(media)
        day_rows(Media(table, program, precinct, media.count, table.room), examples)
        version_rows(Media(table, program, example | {"version": 2}, media.count, table.room), media)
    for rows in (file_rows, name_rows, alone_rows, output_rows, short_output_rows, read_only_rows):
        rows(two)
    read_only_rows(four)


FIRST = ("1 1 -/-", "9 1 -/-", f"{GREATEST} 1 -/-")
CAST = text("open cast 1", *(f"cast 1 {line}" for line in FIRST), "close", "checkpoint")
CAST_TOLD = text("casting 1", "1 1 accepted", "1 2 accepted", "1 3 accepted", "closed 3", "checkpoint 3")
MORE = text("open cast 1", "cast 1 5 1 1/-", f"cast 1 {2**63} 1 2/-", "close", "checkpoint")
MORE_CAST = text("casting 1", "1 1 accepted", "1 2 accepted", "closed 5", "checkpoint 5")
PHASE, PHASE_TOLD = MORE.removesuffix(b"checkpoint\n"), MORE_CAST.removesuffix(b"checkpoint 5\n")
FIVE = (*FIRST, "5 1 1/-", f"{2**63} 1 2/-")


def example_rows(media):
    """The three ballots of docs/FORMATS.md, in two parts."""
    none, three = media.media(()), media.media(FIRST)
    media.ran("three ballots", none, FIRST, CAST, CAST_TOLD)
    cells = [(data[32 + 17 * place:][:8], place, part) for part, place, data in
             ((0, 4, three[0]), (0, 5, three[0]), (1, 3, three[1]))]
    wanted = [(number.to_bytes(8, "big"), place, part) for number, place, part in
              ((9, 4, 0), (1, 5, 0), (GREATEST, 3, 1))]
    media.table.same("the cells of three ballots in two parts", cells, wanted)
    media.exports("three ballots", FIRST)
    media.ran("an export of three ballots", three, FIRST, b"export", media.exported(FIRST))
    media.ran("no script", three, FIRST)
    media.refused("two parts exchanged", three[::-1], misplaced(0, GREATEST))
    ten = [f"{number} 1 -/-" for number in (1, 2, 5, 6, 9, 14, 17, 22, GREATEST, 3)]
    script = text("open cast 1", *(f"cast 1 {line}" for line in ten), "close")
    replies = text("casting 1", *(f"1 {k} accepted" for k in range(1, 10)), "1 10 full", "closed 9")
    media.ran("ten ballots of which nine fit", none, (), script, replies)
    media.ran("ten ballots of which nine fit, and a checkpoint", none, ten[:9], script + b"checkpoint\n",
              replies + text("checkpoint 9"))
    for name, order in (("rising", FIVE), ("falling", FIVE[::-1])):
        casts = (f"cast {1 + k % 2} {line}" for k, line in enumerate(order))
        script = text("open cast 2", *casts, "close", "checkpoint")
        replies = text("casting 2", "1 1 accepted", "1 2 accepted", "1 3 accepted", "2 1 accepted", "2 2 accepted",
                       "closed 5", "checkpoint 5")
        media.ran(f"five ballots, {name}", none, FIVE, script, replies)
    gone = MORE + text("open withdraw 2", "withdraw 1 5", f"withdraw 2 {2**63}", "close", "checkpoint")
    told = MORE_CAST + text("withdrawing 2", "1 1 withdrawn", "2 1 withdrawn", "closed 3", "checkpoint 3")
    media.ran("two ballots cast and withdrawn", three, FIRST, gone, told)


def session_rows(media, broken_off):
    """Sessions with bad lines, and with scripts that do not come to their end."""
    table, none, three = media.table, media.media(()), media.media(FIRST)
    media.ran("no checkpoint", three, FIRST, PHASE, PHASE_TOLD)
    media.ran("an open phase", three, FIVE, MORE + text("open find 1", "find 1 5"),
              MORE_CAST + text("finding 1", "dropped finding"))
    bad = text("x", "checkpoint ", "close", "open cast 1", "checkpoint", "cast 2 5 1 -/-", "cast 1 5 1 1/-",
               f"cast 1 {2**63} 2 2/-", f"cast 1 {2**64} 1 2/-", f"cast 1 {2**63} 1 2/-", "tally", "close", "a" * 8193,
               "withdraw 1 9", "checkpoint")
    told = text("line 1 malformed", "line 2 malformed", "line 3 wrong-phase closed", "casting 1",
                "line 5 wrong-phase casting", "line 6 invalid", "line 8 invalid", "line 9 malformed",
                "line 11 wrong-phase casting", "1 1 accepted", "1 2 accepted", "closed 5", "line 13 malformed",
                "line 14 wrong-phase closed", "checkpoint 5")
    media.ran("bad lines", three, FIVE, bad, told)
    long = CAST + b"open cast 1\n"
    long += b"a" * (SCRIPT_LIMIT + 1 - len(long))
    media.ran("a script that is too long", none, FIRST, long, CAST_TOLD + b"casting 1\n", LONG_SCRIPT)
    for name, lines, told, held in (("behind a checkpoint", CAST + b"checkpoint", CAST_TOLD, FIRST),
                                    ("in its first line", b"checkpoin", b"", ())):
        media.lay(none)
        with broken_off(lines) as stream:
            done = subprocess.run([media.program, *media.words], stdin=stream, capture_output=True)
        status, why = SCRIPT_FAULT
        name = f"a script of two parts whose connection is reset {name}"
        table.judge(name, (done.returncode, done.stdout, done.stderr),
                    (status, told, f"ballot_store: {why}\n".encode()))
        media.stands(name, media.media(held))


class Kind(NamedTuple):
    """A medium: the lines of its part that it holds, and the foreign number among them, or why it is refused."""
    name: str
    data: bytes
    lines: tuple = ()
    foreign: int = None
    why: tuple = None


def kinds(media, part):
    """Media in the place of this part."""
    start = least(media.count, part) + 4
    mine = tuple(f"{start + 5 * k} 1 {k}/-" for k in range(1, 4))
    other = (mine[1], f"{start} 1 -/2")
    good, before = media.medium(*mine), media.medium(*other)
    beside = least(media.count, part + 1) if part + 1 < media.count else least(media.count, part) - 1
    cell = next(place for place in range(16) if any(good[32 + 17 * place:][:17]))
    style = 40 + 17 * cell
    yield Kind("whole", good, mine)
    yield Kind("of no ballot", media.medium())
    for stop, data in enumerate(torn(before, good), 1):
        yield Kind(f"torn in part {stop}", data, other if stop <= 6 else mine)
    yield Kind("with a foreign number", media.medium(*mine, f"{beside} 1 -/-"), foreign=beside)
    yield Kind("torn, with a foreign number", media.medium(f"{beside} 1 -/-")[:-1] + b"\0", foreign=beside)
    yield Kind("damaged", good[:style] + b"\2" + good[style + 1:], why=(10, f"damaged cell {cell}"))
    yield Kind("of another election", good[:31] + b"\1" + good[32:], why=OTHER_ELECTION)
    for name, data in {"of a byte too many": good + b"\0", "of a byte too few": good[:-1], "without a byte": b"",
                       "that is missing": None, "with closed gates": good[:-2] + b"\0\xa6"}.items():
        yield Kind(name, data, why=NO_STORE)


def kind_rows(stores):
    """All pairs of these kinds in two parts, and one of them, or two, in four and in eight."""
    two, *more = stores
    for chosen in itertools.product(*(list(kinds(two, part)) for part in range(2))):
        opened(two, chosen)
    for media in more:
        all_kinds = [list(kinds(media, part)) for part in range(media.count)]
        whole = [of_part[0] for of_part in all_kinds]
        for part in range(media.count):
            for kind in all_kinds[part]:
                opened(media, whole[:part] + [kind] + whole[part + 1:])
        for at in range(len(all_kinds[0])):  # a kind in the last part, and the next in one before
            chosen = list(whole)
            chosen[-1], chosen[at % (media.count - 1)] = all_kinds[-1][at], all_kinds[at % (media.count - 1)][at - 1]
            opened(media, chosen)


def opened(media, chosen):
    """A run on parts of these kinds, and what a second program says of them. What is no store comes before what is
    misplaced, and the first of each is told."""
    name = f"{media.count} parts: " + ", ".join(kind.name for kind in chosen if kind.name != "whole")
    data, lines = [kind.data for kind in chosen], [line for kind in chosen for line in kind.lines]
    refusals = [part_of_further(part, *kind.why) for part, kind in enumerate(chosen) if kind.why]
    refusals += [misplaced(part, kind.foreign) for part, kind in enumerate(chosen) if kind.foreign]
    media.lay(data)
    first, *more = map(str, media.paths)
    said = opinion(first, media.election, *more)
    if refusals:
        media.table.same(f"a second opinion on {name}", said, refusals[0])
        media.refused(name, data, refusals[0])
        return
    wanted = len(lines) if data == media.media(lines) else 14
    media.table.same(f"a second opinion on {name}", said[0] if wanted == 14 else said, wanted)
    media.ran(name, data, lines, b"export", media.exported(lines))


def numbers_in(media, each):
    """So many numbers of each part."""
    return [least(media.count, part) + 3 * k for part in range(media.count) for k in range(each)]


def phase_rows(media):
    """Casts, withdrawals and finds: K counts in the whole list, and N all that are held."""
    numbers = numbers_in(media, 2)
    lines = [f"{number} 1 {1 + at % 4}/{at % 3 or '-'}" for at, number in enumerate(numbers)]
    first, last = lines[:len(lines) // 2], lines[len(lines) // 2:]
    script = ["open cast 2", *(f"cast 1 {line}" for line in first), *(f"cast 2 {line}" for line in last),
              f"cast 1 {first[0]}", f"cast 1 {numbers[0]} 1 -/-", f"cast 2 {last[-1]}", "close"]
    half, whole = len(first), len(lines)
    told = ["casting 2", *(f"1 {k} accepted" for k in range(1, half + 1)), f"1 {half + 1} duplicate",
            f"1 {half + 2} conflict", *(f"2 {k} accepted" for k in range(1, half + 1)), f"2 {half + 1} duplicate",
            f"closed {whole}"]
    none = media.media(())
    media.ran("a casting phase", none, lines, text(*script, "checkpoint", "tally", "export"),
              text(*told, f"checkpoint {whole}", *tally(media.parts, lines)) + media.exported(lines))
    media.exports("a casting phase", lines)
    finds = ["open find 2", f"find 2 {numbers[0]}", f"find 1 {numbers[-1]}", "find 1 777", f"find 1 {GREATEST}",
             "close"]
    found = ["finding 2", "1 1 present", "1 2 absent", "1 3 absent", "2 1 present", f"closed {whole}"]
    media.ran("a finding phase", media.media(lines), lines, text(*finds), text(*found))
    gone = [numbers[0], numbers[-1], numbers[half]]
    script = ["open withdraw 2", *(f"withdraw 1 {number}" for number in (gone[0], 777, gone[1], gone[0], gone[1])),
              f"withdraw 2 {gone[2]}", f"withdraw 2 {GREATEST}", f"withdraw 2 {gone[2]}", "close", "checkpoint",
              "tally"]
    left = [line for line in lines if number_of(line) not in gone]
    told = ["withdrawing 2", "1 1 withdrawn", "1 2 absent", "1 3 withdrawn", "1 4 gone", "1 5 gone", "2 1 withdrawn",
            "2 2 absent", "2 3 gone", f"closed {whole - 3}", f"checkpoint {whole - 3}", *tally(media.parts, left)]
    media.ran("a withdrawing phase", media.media(lines), left, text(*script), text(*told))
    tabs = media.count * 2  # each number at a tabulator of its own, and at the next one again
    script = [f"open cast {tabs}", *(f"cast {1 + at} {line}" for at, line in enumerate(lines)), "close"]
    told = [f"casting {tabs}", *(f"{1 + at} 1 accepted" for at in range(tabs)), f"closed {whole}"]
    again = [f"open cast {tabs}", *(f"cast {1 + (at + 1) % tabs} {line}" for at, line in enumerate(lines)), "close"]
    met = [f"casting {tabs}", *(f"{1 + at} 1 duplicate" for at in range(tabs)), f"closed {whole}"]
    media.ran("a tabulator for each ballot", none, lines, text(*script, *again, "checkpoint"),
              text(*told, *met, f"checkpoint {whole}"))


def limit_rows(media):
    """The limit is that of each part by itself."""
    numbers = numbers_in(media, 8)
    lines = [f"{number} 1 -/-" for number in numbers]
    script, told = ["open cast 1"], ["casting 1"]
    for at, line in enumerate(lines):
        script += [f"cast 1 {line}"]
        told += [f"1 {at + 1} accepted"]
    for part in range(media.count):
        script += [f"cast 1 {least(media.count, part) + 1} 1 -/-", f"cast 1 {lines[8 * part]}"]
        told += [f"1 {len(lines) + 2 * part + 1} full", f"1 {len(lines) + 2 * part + 2} duplicate"]
    end = [f"closed {len(lines)}", f"checkpoint {len(lines)}"]
    media.ran("full parts", media.media(()), lines, text(*script, "close", "checkpoint"), text(*told, *end))
    held, part = lines[:-1], media.count - 1  # all parts but the last are full
    one = least(media.count, part)
    script = text("open cast 1", "cast 1 1000 1 -/-", f"cast 1 {one + 1} 1 1/-", "cast 1 1001 1 -/-",
                  f"cast 1 {one + 2} 1 -/-", "close", "checkpoint")
    told = text("casting 1", "1 1 full", "1 2 accepted", "1 3 full", "1 4 full", *end)
    after = [*held, f"{one + 1} 1 1/-"]
    media.ran("room in the last part alone", media.media(held), after, script, told)
    gone = text("open withdraw 1", f"withdraw 1 {numbers[0]}", "close", "open cast 1", "cast 1 1000 1 -/-",
                f"cast 1 {one + 2} 1 -/-", "cast 1 1001 1 -/-", "close", "checkpoint")
    told = text("withdrawing 1", "1 1 withdrawn", f"closed {len(lines) - 1}", "casting 1", "1 1 accepted", "1 2 full",
                "1 3 full", *end)
    media.ran("room in the first part alone", media.media(after), [*after[1:], "1000 1 -/-"], gone, told)


def word_rows(media):
    """The words behind `part`."""
    table, election, three = media.table, media.election, media.media(FIRST)
    first, *more = media.names
    media.lay(three)
    many = [f"more{k}" for k in range(10)]
    for count in set(range(10)) - {1, 3, 7}:
        table.row(f"part with {count} further media", [first, election, "part", *many[:count]], USAGE)
    wrong = [["", *more[1:]], [*more[:-1], ""], [*more[:-1], first], ["-", *more[1:]], [*more[:-1], "--help"],
             [*more[:-1], b"part\xff"]] + [[*more[:-1], more[0]]] * (len(more) > 1)
    for words in wrong:
        for path in (election, "no.json"):
            table.row(f"part with the words {words} under {path[-7:]}", [first, path, "part", *words], USAGE)
    for medium, path in (("-first", election), ("", election), (first, ""), (first, "-e"), (more[-1], election)):
        table.row(f"part behind {medium!r} and {path[-7:]!r}", [medium, path, "part", *more], USAGE)
    for command in ("parts", "Part", "part "):
        table.row(f"the command {command!r}", [first, election, command, *more], USAGE)
    media.stands("words that are no form", three)
    table.row("parts under a missing election", [first, "no.json", "part", *more], ELECTION_FAULT)
    table.row("parts under a medium", [first, first, "part", *more], BAD_ELECTION)
    media.stands("elections that are none", three)
    odd = ["a b", "=", "part", "t-", "\u00e9", "e", "f"][:len(more)]
    for name, data in zip(odd, three[1:]):
        (table.room / name).write_bytes(data)
    table.row(f"parts by the names {odd}", [first, election, "part", *odd], OK, b"export", media.exported(FIRST))


def file_rows(media):
    """Files that are none, or in no folder. Where the look at a part fails, no part was written."""
    table, election, three = media.table, media.election, media.media(FIRST)
    second = (17, "disk fault at medium 1")
    torn_a, bad = three[0][:-1] + b"\0", three[0][:108] + b"\2" + three[0][109:]
    cases = [("part0", ".", torn_a, second), ("part0", "part0/x", torn_a, second), (".", "part1", torn_a, DISK_FAULT),
             ("part0", "no/such", torn_a, (20, "medium 1 no store")), ("no/such", "part1", torn_a, NO_STORE),
             ("part1/x", "part1", torn_a, DISK_FAULT), (".", "./.", torn_a, DISK_FAULT),
             ("no/such", ".", bad, NO_STORE),
             ("part0", ".", bad, (10, "damaged cell 4")), ("part0", "none", bad, (10, "damaged cell 4")),
             ("none", "none/x", torn_a, NO_STORE), (election, "part1", torn_a, DISK_FAULT),
             ("part0", election, torn_a, second), ("part0", election, bad, (10, "damaged cell 4"))]
    for first, other, data, ending in cases:
        name = f"the parts {first[-7:]} and {other[-7:]}, of {ending[1]}"
        media.lay([data, three[1]])
        table.row(name, [first, election, "part", other], ending, b"checkpoint\n")
        media.stands(name, [data, three[1]])
    table.same("that no file was made", [(table.room / name).exists() for name in ("no", "none")], [False, False])


def name_rows(media):
    """One file under two names: misplaced where it holds a number, and else a fault of the first of the two, which
    cannot be had alone. And files by links."""
    table, election, three = media.table, media.election, media.media(FIRST)
    for link, kind in ((os.symlink, "soft"), (os.link, "hard")):
        media.lay(three)
        names = [f"{name}.{kind}.name" for name in media.names]
        for old, new in zip(media.names, names):
            link(table.room / old, table.room / new)
        for words, ending in (((media.names[0], names[0]), misplaced(1, 1)), ((names[0], "part0"), misplaced(1, 1)),
                              (("part1", names[1]), misplaced(0, GREATEST)), (("part0", "./part0"), misplaced(1, 1))):
            table.row(f"one file as {words}", [words[0], election, "part", words[1]], ending, CAST)
        media.stands(f"one file under two names, by a {kind} link", three)
        table.row(f"two parts by {kind} links", [names[0], election, "part", names[1]], OK, MORE, MORE_CAST)
        media.stands(f"two parts by {kind} links", media.media(FIVE))
        for path in media.paths:
            path.write_bytes(media.medium())
        for words in (("part0", names[0]), (names[1], "part1"), ("part0", "./part0")):
            table.row(f"one file of no ballot as {words}", [words[0], election, "part", words[1]], DISK_FAULT, CAST)
        media.stands(f"one file of no ballot under two names, by a {kind} link", media.media(()))
        others = [table.file(f"other{k}", media.medium()) for k in range(2)]
        table.row(f"a file of no ballot as its third and fourth part, by a {kind} link",
                  [others[0], election, "part", others[1], "part0", names[0]], (17, "disk fault at medium 2"), CAST)
    (table.room / "gone.name").unlink(missing_ok=True)
    (table.room / "gone.name").symlink_to("gone")
    for words in (("gone", "gone.name"), ("gone.name", "gone"), ("gone", "./gone")):
        table.row(f"one file that is missing, as {words}", [words[0], election, "part", words[1]], NO_STORE, CAST)
    table.same("that no file was made", (table.room / "gone").exists(), False)


def alone_rows(media):
    """A session on one part takes every number. The parts are refused then, until it is withdrawn there again."""
    table, three = media.table, media.media(FIRST)
    media.lay(three)
    for part, number in ((0, 2**63 + 5), (1, 8)):
        alone = [media.names[part], media.election, "session"]
        table.row(f"a foreign number cast into part {part} alone", alone, OK,
                  text("open cast 1", f"cast 1 {number} 1 -/-", "close", "checkpoint"),
                  text("casting 1", "1 1 accepted", f"closed {3 - part}", f"checkpoint {3 - part}"))
        table.row(f"parts of which {part} was used alone", media.words, misplaced(part, number), b"export")
        table.row(f"the foreign number withdrawn from part {part}", alone, OK,
                  text("open withdraw 1", f"withdraw 1 {number}", "close", "checkpoint"),
                  text("withdrawing 1", "1 1 withdrawn", f"closed {2 - part}", f"checkpoint {2 - part}"))
        table.row(f"parts once it was withdrawn from part {part}", media.words, OK, b"export", media.exported(FIRST))
    media.stands("foreign numbers that were withdrawn", three)


def lock_rows(media):
    """Parts that another run has. Each is needed alone, once all were looked at."""
    table, three = media.table, media.media(FIRST)
    held = [three[0][:-1] + b"\0", *three[1:]]  # a first part that has to be recovered
    for part in {0, 1, media.count - 1}:
        ending = DISK_FAULT if part == 0 else (17, f"disk fault at medium {part}")
        after = held if part == 0 else three
        media.lay(three if part == 0 else held)
        session = [media.program, media.names[part], media.election, "session"]
        with waiting(session, b"open find 1\n", b"finding 1\n", table.room) as run:
            table.same(f"a session that has part {part}", run.told, b"finding 1\n")
            beside(table, f"{media.count} parts beside a session of part {part}", media.words, ending, script=MORE)
        media.stands(f"a run beside a session of part {part}", three if part == 0 else held)
        for how, kind, left in ((fcntl.LOCK_EX, "alone", held), (fcntl.LOCK_SH, "with others", after)):
            media.lay(held)
            with open(table.room / media.names[part], "rb") as file:
                fcntl.flock(file, how)
                name = f"{media.count} parts of which part {part} is held {kind}"
                beside(table, name, media.words, ending, script=MORE)
            media.stands(name, left)


def held_rows(media):
    """Runs beside a session on all parts, which waits."""
    table, election, three = media.table, media.election, media.media(FIRST)
    media.lay([three[0][:-1] + b"\0", *three[1:]])
    with waiting([media.program, *media.words], MORE, MORE_CAST, table.room) as run:
        table.same("a session of parts that waits", run.told, MORE_CAST)
        media.stands("a checkpoint that was told", media.media(FIVE))
        table.same("a session of parts has them all alone", locks_of(run), ["WRITE"] * media.count)
        beside(table, "the same parts beside it", media.words, DISK_FAULT, script=MORE)
        table.file("free", media.medium())
        free = ["free", *media.names[1:]]
        beside(table, "other parts beside it", media.words_of(free), (17, "disk fault at medium 1"), script=MORE)
        for name in media.names:
            for command in ("session", "audit", "init"):
                beside(table, f"{command} of {name} beside a session of parts", [name, election, command], DISK_FAULT)
            beside(table, f"a merge with {name} beside a session of parts", ["free", election, "merge", name],
                   (17, "disk fault at medium 1"))
        found = *run.communicate(b"export\n", timeout=20), run.returncode
        table.same("the end of a session of parts that waited", found, (media.exported(FIVE), b"", 0))


def output_rows(media):
    """Nobody is told. What was acknowledged is in the parts, and nothing else."""
    table, three, five = media.table, media.media(FIRST), media.media(FIVE)
    table.file("more.session", MORE)
    table.file("phase.session", PHASE)
    run = " ".join(['"$P"', "part0", '"$E"', "part", *media.names[1:]])
    for name, output in (("to a full device", ">/dev/full"), ("with its output closed", ">&-")):
        for script in ("more.session", "phase.session"):  # replies are written before a checkpoint is begun
            media.lay([three[0][:-1] + b"\0", *three[1:]])
            table.shell(f"parts {name}, from {script}", f"{run} <{script} {output}", WRITE_FAULT,
                        env={"E": media.election})
            media.stands(f"parts {name}, from {script}", three)
        table.shell(f"parts {name}, and no reply", f"{run} </dev/null {output}", OK, env={"E": media.election})
        media.lay(three[::-1])
        table.shell(f"parts {name} that are exchanged", f"{run} <more.session {output}", misplaced(0, GREATEST),
                    env={"E": media.election})
    media.lay(five)
    table.shell("a checkpoint of parts to a full device", f"echo checkpoint | {run} >/dev/full", WRITE_FAULT,
                env={"E": media.election})
    media.stands("a checkpoint of parts to a full device", five)


def short_output_rows(media):
    """An output that becomes full behind a checkpoint: the parts hold what was acknowledged."""
    table = media.table
    script = MORE + b"export\n" * 20 + text("open withdraw 1", "withdraw 1 5", "close", "checkpoint")
    whole = MORE_CAST + media.exported(FIVE) * 20
    media.lay(media.media(FIRST))
    told, room = table.room / "short", len(media.medium()) + 60

    def little():
        resource.setrlimit(resource.RLIMIT_FSIZE, (room, room))

    with open(told, "wb") as output:  # of which more than a medium's size is refused, without a signal
        done = subprocess.run([media.program, *media.words], input=script, stdout=output, stderr=subprocess.PIPE,
                              preexec_fn=little, restore_signals=False)
    found = told.read_bytes()
    table.same("what came before an output of parts was full", found, whole[:len(found)])
    table.same("that it has the reply to a checkpoint of parts", found.count(b"checkpoint 5\n"), 1)
    table.judge("parts whose output becomes full", (done.returncode, b"", done.stderr),
                (WRITE_FAULT[0], b"", f"ballot_store: {WRITE_FAULT[1]}\n".encode()))
    media.stands("an output of parts that became full", media.media(FIVE))


def read_only_rows(media):
    """A part that may only be read ends a run where it is recovered, before anything is said: the parts before it are
    recovered then, and no other is written. All are read first, so what is no store or misplaced is told before."""
    table, three = media.table, media.media(FIRST)
    folder = table.room / f"parts_of_nobody_{media.count}"
    folder.mkdir()
    for source, name, mode in ((media.program, "program", 0o755), (media.election, "election", 0o644)):
        shutil.copyfile(source, folder / name)
        (folder / name).chmod(mode)
    run = ["./program", "part0", "election", "part", *media.names[1:]]
    if os.geteuid() == 0:
        os.chmod(table.room, 0o755)
        os.chown(folder, NOBODY, NOBODY)
        run = ["setpriv", f"--reuid={NOBODY}", f"--regid={NOBODY}", "--clear-groups", *run]
    last, torn_all, lost = media.count - 1, [data[:-1] + b"\0" for data in three], [*three[:-1], b""]
    for part in range(media.count):
        fault = DISK_FAULT if part == 0 else (17, f"disk fault at medium {part}")
        cases = [(f"and the script {script!r}", three, script, fault, three) for script in (b"", b"export\n", MORE)]
        cases += [("beside torn parts", torn_all, MORE, fault, three[:part] + torn_all[part:]),
                  ("before one of no byte", lost, MORE, (20, f"medium {last} no store"), lost),
                  ("among exchanged ones", three[::-1], MORE, misplaced(0, GREATEST), three[::-1])]
        for name, media_of, script, (status, why), then in cases:
            for at, data in enumerate(media_of):
                (folder / media.names[at]).unlink(missing_ok=True)
                (folder / media.names[at]).write_bytes(data)
                (folder / media.names[at]).chmod(0o444 if at == part else 0o666)
            done = subprocess.run(run, input=script, cwd=folder, capture_output=True)
            name = f"part {part} of {media.count} that may only be read, {name}"
            wanted = (status, b"", f"ballot_store: {why}\n".encode())
            table.judge(name, (done.returncode, done.stdout, done.stderr), wanted)
            table.same(name, [(folder / each).read_bytes() for each in media.names], then)


def version_rows(renewed, media):
    """Parts of version 2; media of one version under the election of the other are no store."""
    old, new = media.media(FIRST), renewed.media(FIRST)
    renewed.ran("three ballots of version 2", renewed.media(()), FIRST, CAST, CAST_TOLD)
    renewed.exports("three ballots of version 2", FIRST)
    renewed.ran("five ballots of version 2", new, FIVE, MORE, MORE_CAST)
    renewed.refused("parts of version 1 under version 2", old, NO_STORE)
    media.refused("parts of version 2 under version 1", new, NO_STORE)
    last = media.count - 1
    renewed.refused("a last part of version 1 under version 2", [*new[:-1], old[-1]], (20, f"medium {last} no store"))


def day_rows(media, examples):
    """A day of a precinct, whose replies and ballots are those of one medium; and the next one."""
    table = media.table
    for path in media.paths:
        path.unlink(missing_ok=True)
        table.row(f"{path.name} of a precinct", [str(path), media.election, "init"], OK, output=b"ready\n")
    script, replies = ((examples / f"day_5_tabulators.{kind}").read_bytes() for kind in ("session", "replies"))
    table.row(f"a day in {media.count} parts", media.words, OK, script, replies)
    done = subprocess.run([media.program, *media.words], input=b"export\n", capture_output=True)
    held = done.stdout.decode().splitlines()[1:]
    media.stands("a day in parts", media.media(held))
    media.exports("a day in parts", held)
    one = media.folder / "day_of_parts.medium"
    one.write_bytes(media.medium())
    table.row("the same day on one medium", [str(one), media.election, "session"], OK, script, replies)
    table.same("the day on one medium", one.read_bytes(), media.medium(*held))
    gone = text("open withdraw 1", *(f"withdraw 1 {line.split(' ')[0]}" for line in held[::2]), "close", "checkpoint")
    count = len(held[1::2])
    replies = text("withdrawing 1", *(f"1 {k} withdrawn" for k in range(1, len(held[::2]) + 1)), f"closed {count}",
                   f"checkpoint {count}")
    media.ran("the next day", media.media(held), held[1::2], gone, replies)


def full_rows(media):
    """Eight full parts of the greatest limit, and one ballot more in each."""
    numbers = [part << 61 | k * 0x9E3779B97F4A7C15 % 2**61 for part in range(8) for k in range(1, 32769)]
    lines = [f"{number} 1 {k % 3 or '-'}" for k, number in enumerate(numbers)]
    turns = [lines[at::32768] for at in range(32768)]  # each worker gets numbers of all parts
    script = ["open cast 8", *(f"cast {1 + at % 8} {line}" for at, each in enumerate(turns) for line in each), "close"]
    told = [f"{i} {k} accepted" for i in range(1, 9) for k in range(1, 32769)]
    more = ["open cast 1", *(f"cast 1 {(part << 61) + 1} 1 1" for part in range(8)), "close"]
    met = ["casting 1", *(f"1 {part + 1} full" for part in range(8)), "closed 262144"]
    media.ran("eight full parts", media.media(()), lines, text(*script, "checkpoint", *more, "tally"),
              text("casting 8", *told, "closed 262144", "checkpoint 262144", *met, *tally(media.parts, lines)))
    media.ran("an export of eight full parts", media.media(lines), lines, b"export", media.exported(lines))
