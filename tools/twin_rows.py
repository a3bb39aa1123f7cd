"""The cases of `twin` for `check_program`."""

import fcntl
import itertools
import json
import os
import random
import re
import resource
import shutil
import subprocess
import sys
import tempfile
import time
from pathlib import Path
from typing import NamedTuple

from held_runs import beside, ended, locks_of, untold, waiting
from version_rows import OPEN_GATES, image, plain, text

OK = (0, "")
USAGE = (2, "usage")
BAD_ELECTION = (3, "bad election")
LONG_SCRIPT = (4, "script too long")
DISK_FAULT = (5, "disk fault")
ELECTION_FAULT = (6, "election read fault")
SCRIPT_FAULT = (6, "script read fault")
WRITE_FAULT = (7, "write fault")
NO_STORE = (9, "no store")
OTHER_ELECTION = (11, "other election")
SECOND_FAULT = (17, "disk fault at medium 1")
SCRIPT_LIMIT = 67_108_864
NOBODY = 65534
NAMES = ("first", "second")


def damaged(cell):
    return (10, f"damaged cell {cell}")


def wrong_size(size):
    return (13, f"wrong size {size}")


def of_second(ending):
    """The refusal of a second medium, for what a first one is refused for."""
    status, why = ending
    return (18 if status == 13 else 20, f"medium 1 {why}")


class Media:
    """The table of rows, and the media of one election: "first" and "second", in a folder in memory if there is one."""

    made = itertools.count()

    def __init__(self, table, program, parts, folder):
        self.table, self.program, self.parts, self.folder = table, program, parts, Path(folder)
        self.election = str(self.folder / f"twin{next(Media.made)}.json")
        Path(self.election).write_text(json.dumps(parts))
        self.paths = [self.folder / name for name in NAMES]
        self.words = [str(self.paths[0]), self.election, "twin", str(self.paths[1])]

    def medium(self, *lines):
        """The medium of the ballots of some record lines."""
        return image(self.parts, lines) * 2 + OPEN_GATES

    def lay(self, *media):
        """Lays the two media, of which either may be missing."""
        for path, data in zip(self.paths, media):
            path.unlink(missing_ok=True)
            if data is not None:
                path.write_bytes(data)

    def found(self):
        return [path.read_bytes() if path.exists() else None for path in self.paths]

    def stands(self, name, *media):
        """Compares what the two media have after a run."""
        for which, found, data in zip(NAMES, self.found(), media):
            self.table.same(f"the {which} medium after {name}", found, data)

    def refused(self, name, first, second, ending):
        """A pair that comes to this end, and stays as it is."""
        self.lay(first, second)
        self.table.row(name, self.words, ending, b"open find 1\nclose\ncheckpoint\nexport\n")
        self.stands(name, first, second)

    def paired(self, name, first, second, said, lines, script=b"", replies=b"", ending=OK):
        """A pair of which this is said, and which then comes to the medium of these lines on both sides."""
        self.lay(first, second)
        self.table.row(name, self.words, ending, script, b"media %s\n" % said.encode() + replies)
        self.stands(name, *2 * [self.medium(*lines)])

    def exported(self, lines):
        """The replies to an export."""
        return text(f"export {len(lines)}", *sorted(lines, key=lambda line: int(line.split(" ")[0])))


def twin_rows(table, program, examples, broken_off, kills):
    shared = "/dev/shm" if os.access("/dev/shm", os.W_OK) else None
    with tempfile.TemporaryDirectory(dir=shared) as folder:
        in_memory = Media(table, program, json.loads((examples / "election.json").read_text()), folder)
        pair_rows(in_memory)
        killed_rows(Media(table, program, plain(2, 4, 1, limit=300, bits=9, salt="0123456789abcdef"), folder), kills)
        full_rows(Media(table, program, plain(16, 32, 1, limit=32768, bits=16, salt="fedcba9876543210"), folder))
    media = Media(table, program, json.loads((examples / "election.json").read_text()), table.room)
    example_rows(media, examples)
    session_rows(media, examples, broken_off)
    for rows in (word_rows, file_rows, name_rows, lock_rows, held_up_rows, read_only_rows, output_rows,
                 short_output_rows, two_version_rows):
        rows(media)
    day_rows(Media(table, program, json.loads((examples / "precinct.json").read_text()), table.room), examples)


THREE = ("9 1 1/-", "14 1 -/2", "1 1 2/1,3")
OTHER = ("22 1 -/-", "9 1 2/-", "14 1 -/2")
FOUR = ("22 1 -/-", *THREE)
MORE = text("open cast 1", "cast 1 22 1 -/-", "close", "checkpoint")
MORE_CAST = text("casting 1", "1 1 accepted", "closed 4", "checkpoint 4")


def example_rows(media, examples):
    """The empty set and the three ballots of the examples, on either side."""
    table, three, none = media.table, media.medium(*THREE), media.medium()
    script, replies = ((examples / f"three_ballots.{kind}").read_bytes() for kind in ("session", "replies"))
    assert len(three) == 610
    media.paired("a pair of no ballots, and a session", none, none, "equal", THREE, script, replies)
    media.paired("a second disk that is lost", three, b"", "second-restored", THREE)
    media.paired("a second disk with another set", three, none, "differed", THREE)
    media.paired("a first disk that is lost", b"", three, "first-restored", THREE)
    media.refused("two disks that are lost", b"", b"", NO_STORE)
    media.refused("a second disk that is too large", three, bytes(611), (18, "medium 1 wrong size 611"))
    for which, lost in (("first", (None, three)), ("second", (three, None))):
        media.paired(f"a {which} disk that is missing", *lost, f"{which}-restored", THREE)
        made = media.paths[NAMES.index(which)]
        table.same(f"a {which} disk that was made is its owner's alone", made.stat().st_mode & 0o777, 0o600)
        second_opinion(media, f"a {which} disk that was made", 3)
    media.lay(b"", three)
    media.paths[0].chmod(0o640)
    table.row("a lost disk that some may read", media.words, OK, output=b"media first-restored\n")
    table.same("a disk that was there keeps its mode", media.paths[0].stat().st_mode & 0o777, 0o640)


def second_opinion(media, name, count):
    """What a second program says of both disks."""
    for path in media.paths:
        second = [sys.executable, Path(__file__).resolve().parent / "check_medium.py", path, media.election]
        theirs = subprocess.run(second, capture_output=True)
        media.table.same(f"a second opinion on the {path.name} medium after {name}", (theirs.returncode, theirs.stdout),
                         (0, b"canonical %d\n" % count))


class Kind(NamedTuple):
    """A medium: the lines of the set that it holds, or why it is refused. It is lost where it has neither."""
    name: str
    data: bytes
    lines: tuple = None
    why: tuple = None


def torn(old, new):
    """The bytes in each of the twelve parts of a checkpoint: bank B and then A, each behind its closed gate."""
    data, bank = bytearray(old), (len(old) - 2) // 2
    for start, gate in ((bank, -1), (0, -2)):
        half, end = start + bank // 2, start + bank
        for place, written in ((gate, b"\x21"), (gate, b"\0"), (start, new[start:half] + b"\x3c" * (end - half)),
                               (start, new[start:end]), (gate, b"\xa6"), (gate, b"\xa7")):
            at = place % len(data)
            data[at:at + len(written)] = written
            yield bytes(data)


def kinds(media):
    three, other = media.medium(*THREE), media.medium(*OTHER)
    yield Kind("of the set", three, THREE)
    yield Kind("of another set", other, OTHER)
    for part, data in enumerate(torn(other, three), 1):
        yield Kind(f"torn in part {part}", data, OTHER if part <= 6 else THREE)
    yield Kind("damaged", three[:108] + b"\2" + three[109:], why=damaged(4))
    yield Kind("of another election", three[:31] + b"\1" + three[32:], why=OTHER_ELECTION)
    yield Kind("of a byte too many", three + b"\0", why=wrong_size(611))
    yield Kind("without a byte", b"")
    yield Kind("that is missing", None)
    yield Kind("of a byte too few", three[:-1])
    yield Kind("with closed gates", three[:-2] + b"\0\xa6")


def pair_rows(media):
    """All pairs of media of these kinds."""
    for first in kinds(media):
        for second in kinds(media):
            name = f"a first medium {first.name} and a second {second.name}"
            if first.why:
                media.refused(name, first.data, second.data, first.why)
            elif second.why:
                media.refused(name, first.data, second.data, of_second(second.why))
            elif first.lines is None and second.lines is None:
                media.refused(name, first.data, second.data, NO_STORE)
            else:
                said = "equal" if first.lines == second.lines else "differed"
                said = "first-restored" if first.lines is None else "second-restored" if second.lines is None else said
                lines = second.lines if first.lines is None else first.lines
                media.paired(name, first.data, second.data, said, lines, b"export", media.exported(lines))


def session_rows(media, examples, broken_off):
    """Sessions over both disks, as over one: with bad lines, and with scripts that do not come to their end."""
    table, three, none = media.table, media.medium(*THREE), media.medium()
    script, replies = ((examples / f"three_ballots.{kind}").read_bytes() for kind in ("session", "replies"))
    for said, pair in {"equal": (three, three[:-2] + b"\0\xa7"), "differed": (three, none),
                       "first-restored": (None, three), "second-restored": (three, three[:-2] + bytes(2))}.items():
        media.paired(f"a checkpoint on media {said}", *pair, said, FOUR, MORE, MORE_CAST)
        media.paired(f"no checkpoint on media {said}", *pair, said, THREE, MORE.removesuffix(b"checkpoint\n"),
                     MORE_CAST.removesuffix(b"checkpoint 4\n"))
    again = MORE + text("open withdraw 1", "withdraw 1 22", "close", "checkpoint", "open find 1", "find 1 22")
    told = MORE_CAST + text("withdrawing 1", "1 1 withdrawn", "closed 3", "checkpoint 3", "finding 1",
                            "dropped finding")
    media.paired("two checkpoints and an open phase", three, None, "second-restored", THREE, again, told)
    bad = text("x", "checkpoint ", "close", "open cast 1", "checkpoint", "cast 2 22 1 -/-", "cast 1 22 1 -/-", "close",
               "a" * 8193, "media equal", "checkpoint")
    told = text("line 1 malformed", "line 2 malformed", "line 3 wrong-phase closed", "casting 1",
                "line 5 wrong-phase casting", "line 6 invalid", "1 1 accepted", "closed 4", "line 9 malformed",
                "line 10 malformed", "checkpoint 4")
    media.paired("bad lines on two disks", three, three, "equal", FOUR, bad, told)
    long = script + b"open cast 1\n"
    long += b"a" * (SCRIPT_LIMIT + 1 - len(long))
    media.paired("a script that is too long for two disks", none, b"", "second-restored", THREE, long,
                 replies + b"casting 1\n", LONG_SCRIPT)
    for name, lines, told, held in (("behind a checkpoint", script + b"checkpoint", replies, THREE),
                                    ("in its first line", b"checkpoin", b"", ())):
        media.lay(none, None)
        with broken_off(lines) as stream:
            done = subprocess.run([media.program, *media.words], stdin=stream, capture_output=True)
        status, why = SCRIPT_FAULT
        name = f"a script of two disks whose connection is reset {name}"
        table.judge(name, (done.returncode, done.stdout, done.stderr),
                    (status, b"media second-restored\n" + told, f"ballot_store: {why}\n".encode()))
        media.stands(name, *2 * [media.medium(*held)])


def word_rows(media):
    """The words behind `twin`."""
    table, election, three = media.table, media.election, media.medium(*THREE)
    media.lay(three, three)
    for more in ([], ["second", "third"], ["first"], ["second", "second"], ["second", "first"], [""], ["second", ""],
                 ["-second"], ["-"], ["--help"], ["--", "second"], [b"second\xff"]):
        for path in (election, "no.json"):
            table.row(f"twin with the words {more} under {path[-7:]}", ["first", path, "twin", *more], USAGE)
    for first, path in (("-first", election), ("", election), ("first", ""), ("first", "-e"), ("second", election)):
        table.row(f"twin behind {first!r} and {path[-7:]!r}", [first, path, "twin", "second"], USAGE)
    for command in ("twins", "Twin", "twin "):
        table.row(f"the command {command!r}", ["first", election, command, "second"], USAGE)
    media.stands("words that are no form", three, three)
    table.row("a pair under a missing election", ["first", "no.json", "twin", "second"], ELECTION_FAULT)
    table.row("a pair under a medium", ["first", "first", "twin", "second"], BAD_ELECTION)
    media.stands("elections that are none", three, three)
    for second in ("a b", "=", "twin", "t-", "\u00e9"):
        (table.room / second).unlink(missing_ok=True)
        table.row(f"a second disk by the name {second!r}", ["first", election, "twin", second], OK,
                  output=b"media second-restored\n")
        table.same(f"the second disk {second!r}", (table.room / second).read_bytes(), three)
    shutil.copy(election, table.room / "own.json")
    for words, ending in ((["first", "own.json", "twin", "own.json"], SECOND_FAULT),
                          (["own.json", "own.json", "twin", "first"], DISK_FAULT)):
        table.row(f"its election as a disk: {' '.join(words)}", words, ending, MORE)
        found = [(table.room / name).read_bytes() for name in ("own.json", "first")]
        table.same(f"the files after {' '.join(words)}", found, [Path(election).read_bytes(), three])


def file_rows(media):
    """Files that are none, or in no folder. Where a second disk fails, the first may have been recovered."""
    table, election, three = media.table, media.election, media.medium(*THREE)
    bad, shut = three[:108] + b"\2" + three[109:], three[:-2] + bytes(2)
    cases = [("first", ".", three, SECOND_FAULT), ("first", "first/x", three, SECOND_FAULT),
             ("first", "no/such", three, SECOND_FAULT), (".", "second", three, DISK_FAULT),
             ("second/x", "second", three, DISK_FAULT), ("no/such", "second", three, DISK_FAULT),
             (".", "second", bad, DISK_FAULT), (".", "second", shut, DISK_FAULT), (".", "./.", three, DISK_FAULT),
             ("first", ".", bad, damaged(4)), ("first", ".", shut, SECOND_FAULT),
             ("first", ".", bytes(611), wrong_size(611)), ("no/such", "second", bad, of_second(damaged(4))),
             ("no/such", "second", shut, NO_STORE), ("no/such", "no/other", three, NO_STORE),
             ("no/such", ".", three, SECOND_FAULT)]
    for first, second, data, ending in cases:
        name = f"the disks {first} and {second}, of {ending[1]}"
        media.lay(data, data)
        table.row(name, [first, election, "twin", second], ending, b"checkpoint\n")
        media.stands(name, data, data)
    between = three[:305] + b"\x3c" + three[306:]
    media.lay(between, None)
    table.row("a torn first disk and a folder", ["first", election, "twin", "."], SECOND_FAULT, b"checkpoint\n")
    media.stands("a torn first disk and a folder", between, None)
    table.same("that no folder was made", (table.room / "no").exists(), False)


def name_rows(media):
    """One file under two names, and two files by links."""
    table, election, three, other = media.table, media.election, media.medium(*THREE), media.medium(*OTHER)
    media.lay(three, other)
    for link, kind in ((os.symlink, "soft"), (os.link, "hard")):
        for name in NAMES:
            link(table.room / name, table.room / f"{name}.{kind}.name")
        for words in (["first", f"first.{kind}.name"], [f"first.{kind}.name", "first"], ["first", "./first"]):
            table.row(f"one file as {words}", [words[0], election, "twin", words[1]], SECOND_FAULT, MORE)
        media.stands(f"one file under two names, by a {kind} link", three, other)
        table.row(f"two disks by {kind} links", [f"first.{kind}.name", election, "twin", f"second.{kind}.name"], OK,
                  MORE, b"media differed\n" + MORE_CAST)
        media.stands(f"two disks by {kind} links", *2 * [media.medium(*FOUR)])
        for name, data in zip(NAMES, (three, other)):
            (table.room / name).write_bytes(data)
    (table.room / "gone.name").symlink_to("gone")
    for words in (["gone", "gone.name"], ["gone.name", "gone"], ["gone", "./gone"]):
        table.row(f"one file that is missing, as {words}", [words[0], election, "twin", words[1]], NO_STORE, MORE)
    table.same("that no file was made", (table.room / "gone").exists(), False)


def lock_rows(media):
    """Media that another run has. Both are needed alone."""
    table, three, other = media.table, media.medium(*THREE), media.medium(*OTHER)
    for which, ending in zip(NAMES, (DISK_FAULT, SECOND_FAULT)):
        media.lay(three, other)
        session = [media.program, which, media.election, "session"]
        with waiting(session, b"open find 1\n", b"finding 1\n", table.room) as run:
            table.same(f"a session that has the {which} disk", run.told, b"finding 1\n")
            beside(table, f"a pair beside a session of the {which} disk", media.words, ending, script=MORE)
        for how, kind in ((fcntl.LOCK_SH, "shared"), (fcntl.LOCK_EX, "alone")):
            with open(table.room / which, "rb") as file:
                fcntl.flock(file, how)
                beside(table, f"a pair whose {which} disk is held {kind}", media.words, ending, script=MORE)
        media.stands(f"runs beside others of the {which} disk", three, other)


def held_up_rows(media):
    """A pair that cannot be told of, and who comes meanwhile; and a session of two disks that waits."""
    table, three = media.table, media.medium(*THREE)
    media.lay(three, None)
    (table.room / "third").unlink(missing_ok=True)

    def others():
        beside(table, "the same pair beside it", media.words, DISK_FAULT, script=MORE)
        for which, words, ending in (("first", ["third", "first"], SECOND_FAULT),
                                     ("second", ["second", "third"], DISK_FAULT)):
            beside(table, f"another pair with the {which} disk", [words[0], media.election, "twin", words[1]], ending)
        for which in NAMES:
            for command in ("session", "audit", "init"):
                beside(table, f"{command} of the {which} disk beside a pair", [which, media.election, command],
                       DISK_FAULT)

    with untold([media.program, *media.words], table.room, media=2) as (run, reader):
        table.same("a pair has both disks alone", locks_of(run), ["WRITE", "WRITE"])
        others()
        table.same("the end of a pair that was held up", ended(run, reader), (0, b"media second-restored\n"))
    media.stands("a pair that was held up", three, three)
    told = b"media equal\n" + MORE_CAST
    with waiting([media.program, *media.words], MORE, told, table.room) as run:
        table.same("a session of two disks that waits", run.told, told)
        media.stands("a checkpoint that was told", *2 * [media.medium(*FOUR)])
        others()
        found = *run.communicate(b"export\n", timeout=20), run.returncode
        table.same("the end of a session that waited", found, (media.exported(FOUR), b"", 0))
    table.same("that no third disk was made", (table.room / "third").exists(), False)


def read_only_rows(media):
    """A disk that may only be read ends a run before anything is said or written, also where nothing has to be written:
    the first at its first sync, and the second at its own."""
    table, three, other = media.table, media.medium(*THREE), media.medium(*OTHER)
    folder = table.room / "twins_of_nobody"
    folder.mkdir()
    for source, name, mode in ((media.program, "program", 0o755), (media.election, "election", 0o644)):
        shutil.copyfile(source, folder / name)
        (folder / name).chmod(mode)
    run = ["./program", "first", "election", "twin", "second"]
    if os.geteuid() == 0:
        os.chmod(table.room, 0o755)
        os.chown(folder, NOBODY, NOBODY)
        run = ["setpriv", f"--reuid={NOBODY}", f"--regid={NOBODY}", "--clear-groups", *run]
    torn_b, bad, large = three[:305] + b"\x3c" + three[306:], three[:108] + b"\2" + three[109:], three + b"\0"
    kinds_of = {"as they have to be": (three, three), "with two sets": (three, other),
                "with a torn first": (torn_b, three), "with a torn second": (three, torn_b),
                "with a first that is lost": (b"", three), "with a second that is lost": (three, b""),
                "with a damaged second": (three, bad), "with a second that is too large": (three, large),
                "that are both lost": (b"", b"")}
    for writable, ending in (("", DISK_FAULT), ("second", DISK_FAULT), ("first", SECOND_FAULT)):
        for kind, then in kinds_of.items():
            for script in (b"", b"export\n", b"checkpoint\n"):
                for which, data in zip(NAMES, then):
                    (folder / which).unlink(missing_ok=True)
                    (folder / which).write_bytes(data)
                    (folder / which).chmod(0o666 if which == writable else 0o444)
                name = f"disks {kind} of which {writable or 'none'} may be written, and the script {script!r}"
                done = subprocess.run(run, input=script, cwd=folder, capture_output=True)
                wanted = (ending[0], b"", f"ballot_store: {ending[1]}\n".encode())
                table.judge(name, (done.returncode, done.stdout, done.stderr), wanted)
                table.same(f"the {name}", tuple((folder / which).read_bytes() for which in NAMES), then)


def output_rows(media):
    """Nobody is told of the pair: both disks hold its set, and no checkpoint is made."""
    table, three = media.table, media.medium(*THREE)
    table.file("more.session", MORE)
    for name, output in (("to a full device", ">/dev/full"), ("with its output closed", ">&-")):
        for first, second in ((three, b""), (None, three), (three, media.medium(*OTHER)), (three[:-1] + b"\0", three)):
            for script in ("/dev/null", "more.session"):
                media.lay(first, second)
                kind = f"a pair {name}, of {first and len(first)} and {second and len(second)} bytes, from {script}"
                table.shell(kind, f'"$P" first "$E" twin second <{script} {output}', WRITE_FAULT,
                            env={"E": media.election})
                media.stands(kind, three, three)
    for first, second, ending in ((b"", None, NO_STORE), (three, bytes(611), of_second(wrong_size(611)))):
        media.lay(first, second)
        table.shell(f"a pair to a full device, of {ending[1]}", '"$P" first "$E" twin second >/dev/full', ending,
                    env={"E": media.election})
        media.stands(f"a pair to a full device, of {ending[1]}", first, second)


def short_output_rows(media):
    """An output that becomes full behind a checkpoint: both disks hold what was acknowledged."""
    table, three = media.table, media.medium(*THREE)
    script = MORE + b"export\n" * 20 + text("open withdraw 1", "withdraw 1 22", "close", "checkpoint")
    whole = b"media second-restored\n" + MORE_CAST + media.exported(FOUR) * 20
    media.lay(three, None)
    told = table.room / "short"

    def little():
        resource.setrlimit(resource.RLIMIT_FSIZE, (len(three) + 60, len(three) + 60))

    with open(told, "wb") as output:  # of which more than a medium's size is refused, without a signal
        done = subprocess.run([media.program, *media.words], input=script, stdout=output, stderr=subprocess.PIPE,
                              preexec_fn=little, restore_signals=False)
    found = told.read_bytes()
    table.same("what came before an output was full", found, whole[:len(found)])
    table.same("that it has the reply to a checkpoint", found.count(b"checkpoint 4\n"), 1)
    table.judge("a pair whose output becomes full", (done.returncode, b"", done.stderr),
                (WRITE_FAULT[0], b"", f"ballot_store: {WRITE_FAULT[1]}\n".encode()))
    media.stands("an output that became full", *2 * [media.medium(*FOUR)])


def two_version_rows(media):
    """A medium of version 1 is too small for version 2, and so is lost there; one of version 2 is too large."""
    renewed = Media(media.table, media.program, media.parts | {"version": 2}, media.folder)
    old, new = media.medium(*OTHER), renewed.medium(*THREE)
    renewed.paired("a pair of version 2", new, new[:-2] + b"\0\xa7", "equal", FOUR, MORE, MORE_CAST)
    renewed.paired("a first disk of version 1 under version 2", old, new, "first-restored", THREE)
    renewed.paired("a second disk of version 1 under version 2", new, old, "second-restored", THREE)
    renewed.refused("two disks of version 1 under version 2", old, old, NO_STORE)
    media.refused("a first disk of version 2 under version 1", new, old, wrong_size(len(new)))
    media.refused("a second disk of version 2 under version 1", old, new, of_second(wrong_size(len(new))))


def day_rows(media, examples):
    """A day of a precinct on two disks, of which one is then lost, and the next day."""
    table = media.table
    media.lay(None, None)
    table.row("a medium for two disks of a precinct", [media.words[0], media.election, "init"], OK, output=b"ready\n")
    script, replies = ((examples / f"day_3_tabulators.{kind}").read_bytes() for kind in ("session", "replies"))
    table.row("a day on two disks", media.words, OK, script, b"media second-restored\n" + replies)
    done = subprocess.run([media.program, *media.words], input=b"export\n", capture_output=True)
    held = done.stdout.decode().splitlines()[2:]
    whole = media.medium(*held)
    media.stands("a day on two disks", whole, whole)
    second_opinion(media, "a day on two disks", len(held))
    gone = text("open withdraw 1", *(f"withdraw 1 {line.split(' ')[0]}" for line in held[::2]), "close", "checkpoint")
    replies = text("withdrawing 1", *(f"1 {k} withdrawn" for k in range(1, len(held[::2]) + 1)),
                   f"closed {len(held[1::2])}", f"checkpoint {len(held[1::2])}")
    media.paired("a day after one of two disks was lost", None, whole, "first-restored", held[1::2], gone, replies)
    half = media.medium(*held[1::2])
    for first, second, said, lines in ((half, whole, "differed", held[1::2]), (whole, half, "differed", held),
                                       (whole, whole[:-1] + b"\0", "equal", held)):
        media.paired(f"the disks of two days, {said}", first, second, said, lines)


def full_rows(media):
    """A full store of 16 contests of 32 choices on a disk that was lost. The media have some 14 million bytes."""
    lines = []
    for k in range(1, 32769):
        groups = [str(1 + (k + place) % 32) for place in range(16)]
        lines.append(f"{k * 0x9E3779B97F4A7C15 % 2**64} 1 {'/'.join(groups if k % 7 else groups[:1] + ['-'] * 15)}")
    whole = media.medium(*lines)
    media.lay(whole, b"")
    media.table.row("a full store on a disk that was lost", media.words, OK, output=b"media second-restored\n")
    media.stands("a full store on a disk that was lost", whole, whole)


class Kills:
    """A session of ten checkpoints on two disks, and the media of its eleven sets."""

    def __init__(self, media):
        self.media, chance, script, replies = media, random.Random(19), [], []
        numbers = [chance.randrange(1, 2**64) for _ in range(160)]
        lines = [f"{number} 1 {chance.choice('-1234')}/{chance.choice('-1234')}" for number in numbers]
        held, self.sets = set(lines[:60]), [media.medium(*lines[:60])]
        for k in range(60, 160, 10):
            gone = sorted(held)[:4]
            script += ["open cast 2", *(f"cast {1 + at % 2} {line}" for at, line in enumerate(lines[k:k + 10])),
                       "close", "open withdraw 1", *(f"withdraw 1 {line.split(' ')[0]}" for line in gone), "close",
                       "checkpoint"]
            held = (held | set(lines[k:k + 10])) - set(gone)
            replies += ["casting 2", *(f"{1 + at // 5} {1 + at % 5} accepted" for at in range(10)),
                        f"closed {len(held) + 4}", "withdrawing 1", *(f"1 {at} withdrawn" for at in range(1, 5)),
                        f"closed {len(held)}", f"checkpoint {len(held)}"]
            self.sets.append(media.medium(*held))
        self.script, self.replies = media.folder / "killed.session", text(*replies)
        self.script.write_bytes(text(*script))
        self.other = media.medium(*lines[150:])

    def run(self, seconds, script=None):
        """Runs the session, and kills it after so many seconds. How it ended, and what it wrote."""
        told = self.media.folder / "told"
        with open(script or self.script, "rb") as script, open(told, "wb") as output:
            with subprocess.Popen([self.media.program, *self.media.words], stdin=script, stdout=output) as run:
                if seconds is None:
                    run.wait(timeout=60)
                else:
                    time.sleep(seconds)
                run.kill()
        return run.returncode, told.read_bytes()

    def wrong(self, said, told, start):
        """What is wrong with a run that was killed, and with the disks that it left, in words, or nothing."""
        line, left = b"media %s\n" % said.encode(), self.media.found()
        if not (line + self.replies).startswith(told):
            return f"it wrote {told[-80:]!r}"
        count = len(re.findall(rb"^checkpoint \d+\n", told, re.MULTILINE))
        begun = told.startswith(line)
        allowed = self.sets[count:count + 2] if begun else self.sets[:1]
        for gone in ({0}, {1}, set()):
            self.media.lay(*(None if side in gone else data for side, data in enumerate(left)))
            rest = [side for side in (0, 1) if side not in gone]
            own = [] if begun else [start[side] for side in rest if start[side]]
            none = not begun and not any(start[side] for side in rest)
            why = self.paired_again(allowed + own, none)
            if why:
                return f"with {gone or 'none'} gone after {count} checkpoints: {why}"
        return ""

    def paired_again(self, allowed, none):
        """What is wrong with the next run, on both disks or on what is left; none of them may be left in some cases."""
        before = self.media.found()
        done = subprocess.run([self.media.program, *self.media.words], input=b"checkpoint\n", capture_output=True)
        first, second = self.media.found()
        if none and done.returncode == 9:
            return "" if [first, second] == before and not done.stdout else "a refused disk is changed"
        missing = [name for name, data in zip(NAMES, before) if data is None]
        says = [f"media {name}-restored".encode() for name in missing or NAMES]
        says += [] if missing else [b"media equal", b"media differed"]
        if done.returncode or done.stderr or done.stdout.split(b"\n")[0] not in says:
            return f"it ends with {done.returncode} {done.stderr!r} and writes {done.stdout!r}"
        if first != second or first not in allowed:
            return "the disks differ" if first != second else "they hold another set"
        return ""


def killed_rows(media, kills):
    """Sessions that are killed at some moment. Each disk then holds the set of the last checkpoint that was told or of
    the next, also where the other one is gone. Each third run is killed while it may still pair the disks."""
    kill, chance = Kills(media), random.Random()
    whole, cut = kill.sets[0], kill.other[:-1]
    starts = {"equal": (whole, whole), "second-restored": (whole, None), "first-restored": (cut, whole),
              "differed": (whole, kill.other)}
    pairing, whole_run = {}, {}
    for said, start in starts.items():
        for seconds, script, replies, after in ((pairing, os.devnull, b"", kill.sets[0]),
                                                (whole_run, None, kill.replies, kill.sets[-1])):
            media.lay(*start)
            begun, name = time.monotonic(), f"{'ten' if script is None else 'no'} checkpoints on media {said}"
            found = kill.run(None, script)
            seconds[said] = time.monotonic() - begun
            media.table.same(name, found, (0, f"media {said}\n".encode() + replies))
            media.stands(name, after, after)
    for number in range(kills):
        said = list(starts)[number % 4]
        start = [None if data is cut else data for data in starts[said]]
        media.lay(*starts[said])
        most = pairing[said] if number % 3 == 0 else min(whole_run.values())
        _, told = kill.run(chance.uniform(0, most))
        media.table.same(f"kill {number + 1}, of media {said}", kill.wrong(said, told, start), "")
