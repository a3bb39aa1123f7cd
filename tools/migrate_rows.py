"""The cases of `migrate` for `check_program`."""

import fcntl
import json
import os
import random
import shutil
import subprocess
import sys
from pathlib import Path

from held_runs import beside, ended, locks_of, untold, waiting
from version_rows import MEDIUM, OPEN_GATES, image, plain, text

OK = (0, "")
USAGE = (2, "usage")
BAD_ELECTION = (3, "bad election")
DISK_FAULT = (5, "disk fault")
ELECTION_FAULT = (6, "election read fault")
WRITE_FAULT = (7, "write fault")
NO_STORE = (9, "no store")
OTHER_ELECTION = (11, "other election")
NO_OLD_FORM = (16, "no version 1 form")
TARGET_FAULT = (17, "disk fault at medium 1")
IN_USE = (19, "medium 1 in use")
NOBODY = 65534


def damaged(cell):
    return (10, f"damaged cell {cell}")


def wrong_size(size):
    return (18, f"medium 1 wrong size {size}")


class Media:
    """The table of rows, and the media of one election in both versions. The files are "old" and "target"."""

    def __init__(self, table, program, parts):
        self.table, self.program = table, program
        self.parts = {1: {key: value for key, value in parts.items() if key != "version"}, 2: {**parts, "version": 2}}
        name = f"migrated{len(list(table.room.iterdir()))}"
        self.elections = {version: table.file(f"{name}_{version}.json", json.dumps(told).encode())
                          for version, told in self.parts.items()}
        self.words = ["old", self.elections[2], "migrate", "target"]

    def medium(self, version, *lines):
        """The medium of the ballots of some record lines."""
        return image(self.parts[version], lines) * 2 + OPEN_GATES

    def lay(self, old, target):
        """Lays the two media, of which either may be missing."""
        for name, data in (("old", old), ("target", target)):
            path = self.table.room / name
            path.unlink(missing_ok=True)
            if data is not None:
                path.write_bytes(data)

    def stands(self, name, *media):
        """Compares what the two media have after a run."""
        paths = self.table.room / "old", self.table.room / "target"
        for what, path, data in zip(("old medium", "target"), paths, media):
            found = path.read_bytes() if path.exists() else None
            self.table.same(f"the {what} after {name}", found, data)

    def refused(self, name, old, target, ending):
        """A migration that comes to this end, and leaves both media as they are."""
        self.lay(old, target)
        self.table.row(name, self.words, ending, b"nobody reads this")
        self.stands(name, old, target)

    def carried(self, name, old, target, lines):
        """A migration that comes to the new medium of these lines."""
        self.lay(old, target)
        self.table.row(name, self.words, OK, b"nobody reads this", b"migrated %d\n" % len(lines))
        self.stands(name, old, self.medium(2, *lines))


def migrate_rows(table, program, examples):
    media = Media(table, program, json.loads((examples / "election.json").read_text()))
    for rows in (example_rows, target_rows, refusal_rows, torn_rows, word_rows, file_rows, name_rows, lock_rows,
                 held_up_rows, read_only_rows, output_rows):
        rows(media)
    form_rows(table, program, examples)
    day_rows(Media(table, program, json.loads((examples / "precinct.json").read_text())), examples)
    wide_rows(Media(table, program, plain(16, 32, 1, allowed=2, limit=40, bits=5, salt="0123456789abcdef")))
    full_rows(Media(table, program, plain(16, 32, 1, limit=32768, bits=16, salt="fedcba9876543210")))


THREE = ("9 1 1/-", "14 1 -/2", "1 1 2/1,3")
EIGHT = tuple(f"{number} 1 -/-" for number in (1, 2, 6, 9, 14, 17, 22, 2**64 - 1))


def example_rows(media):
    """The three ballots of the examples: their media of both versions were written down by hand."""
    table, old = media.table, media.medium(1, *THREE)
    assert media.medium(2, *THREE) == MEDIUM and len(old) == 610 and len(MEDIUM) == 866
    media.carried("a migration into a target without a byte", old, b"", THREE)
    media.carried("a migration into a target that is missing", old, None, THREE)
    table.same("a target that was made is its owner's alone", (table.room / "target").stat().st_mode & 0o777, 0o600)
    table.row("the same migration again", media.words, IN_USE)
    media.stands("the same migration again", old, MEDIUM)
    media.carried("a migration of no ballot", media.medium(1), None, ())
    media.carried("a migration of eight ballots, which fill the store", media.medium(1, *EIGHT), b"", EIGHT)
    media.lay(old, b"")
    (table.room / "target").chmod(0o640)
    table.row("a migration into a target that some may read", media.words, OK, output=b"migrated 3\n")
    table.same("a target that was there keeps its mode", (table.room / "target").stat().st_mode & 0o777, 0o640)
    agreed(media, "the three ballots", THREE)


def agreed(media, name, lines):
    """What the program and the second opinion say of a new medium, beside the old one and a session of version 2."""
    table, count = media.table, len(lines)
    media.carried(f"a migration of {name}", media.medium(1, *lines), None, lines)
    told = text(f"export {count}", *sorted(lines, key=lambda line: int(line.split(" ")[0])))
    shutil.copy(table.room / "old", table.room / "copy")
    for version, medium in ((1, "copy"), (2, "target")):
        words = [medium, media.elections[version]]
        table.row(f"the export of {name} in version {version}", [*words, "session"], OK, b"export\n", told)
        table.row(f"the audit of {name} in version {version}", [*words, "audit"], OK, output=b"canonical %d\n" % count)
    second = [sys.executable, Path(__file__).resolve().parent / "check_medium.py", "target", media.elections[2]]
    theirs = subprocess.run(second, capture_output=True, cwd=table.room)
    table.same(f"a second opinion on {name}", (theirs.returncode, theirs.stdout), (0, b"canonical %d\n" % count))
    (table.room / "cast").unlink(missing_ok=True)
    words = ["cast", media.elections[2]]
    table.row(f"a medium to cast {name}", [*words, "init"], OK, output=b"ready\n")
    script = text("open cast 1", *(f"cast 1 {line}" for line in lines), "close", "checkpoint")
    accepted = (f"1 {k} accepted" for k in range(1, count + 1))
    told = text("casting 1", *accepted, f"closed {count}", f"checkpoint {count}")
    table.row(f"a session that casts {name}", [*words, "session"], OK, script, told)
    for which in ("cast", "target"):
        table.same(f"{name}, {which}", (table.room / which).read_bytes(), media.medium(2, *lines))


def target_rows(media):
    """Targets that are taken, whatever they hold, and those that are not."""
    old, none, rubbish = media.medium(1, *THREE), media.medium(2), bytes(range(256)) * 3 + b"\xa7" * 96
    smaller = {"of one byte": b"\xa7", "of 431 open gates": b"\xa7" * 431, "of 864 bytes": rubbish,
               "that lacks its last gate": none[:-1], "that is a medium of version 1": media.medium(1, *EIGHT),
               "that is the old medium's copy": old}
    shut = {"with closed gates": none[:-2] + bytes(2), "of rubbish, with its gates half open": rubbish + b"\xa6\x27",
            "of three ballots, with closed gates": MEDIUM[:-2] + b"\0\xff"}
    for name, target in (smaller | shut).items():
        media.carried(f"a migration into a target {name}", old, target, THREE)
    for gates in (OPEN_GATES, b"\xa7\0", b"\0\xa7"):
        for name, banks in (("no ballot", none[:-2]), ("three ballots", MEDIUM[:-2]), ("rubbish", rubbish)):
            media.refused(f"a migration into a target of {name} with gates {gates.hex()}", old, banks + gates, IN_USE)
    for target in (none + b"\0", MEDIUM + OPEN_GATES, bytes(1732)):
        size = len(target)
        media.refused(f"a migration into a target of {size} bytes", old, target, wrong_size(size))
    shutil.copy(media.elections[2], media.table.room / "own.json")
    media.lay(old, None)
    media.table.row("a migration into its election", ["old", "own.json", "migrate", "own.json"], TARGET_FAULT)
    media.table.same("an election that was to be a target", (media.table.room / "own.json").read_bytes(),
                     Path(media.elections[2]).read_bytes())
    media.stands("a migration into its election", old, None)


def bad_media(media):
    """Media that give no store in version 1, and why."""
    three = media.medium(1, *THREE)
    bank_b = three[:335] + b"\1" + three[336:608] + b"\0\xa7"
    return {"of 609 bytes": (three[:-1], NO_STORE), "of 611 bytes": (three + b"\0", NO_STORE),
            "that is missing": (None, NO_STORE), "without a byte": (b"", NO_STORE),
            "with closed gates": (three[:-2] + bytes(2), NO_STORE), "of version 2": (MEDIUM, NO_STORE),
            "of another salt": (three[:31] + b"\1" + three[32:], OTHER_ELECTION),
            "with version 2 in its header": (three[:9] + b"\2" + three[10:], OTHER_ELECTION),
            "of another salt in bank B, which is read": (bank_b, OTHER_ELECTION),
            "with a wrong style": (three[:108] + b"\2" + three[109:], damaged(4)),
            "with a choice of version 2": (three[:109] + b"\x80" + three[110:], damaged(4)),
            "with a gap": (three[:100] + bytes(17) + three[117:], damaged(6))}


def refusal_rows(media):
    """The old medium is refused before the target is looked at, and the target is not made then."""
    for name, (old, ending) in bad_media(media).items():
        media.refused(f"a migration of a medium {name}", old, None, ending)
        for target in (b"", MEDIUM, bytes(867)):
            media.refused(f"a migration of a medium {name} into {len(target)} bytes", old, target, ending)
    # cells of four contests in version 1 are as large as those of two in version 2
    two = Media(media.table, media.program, plain(2, 4, 1, limit=8, bits=3))
    four = Media(media.table, media.program, plain(4, 4, 1, limit=8, bits=3))
    four.refused("a migration of a medium of version 2 of the same size", two.medium(2), None, OTHER_ELECTION)
    assert len(two.medium(2)) == len(four.medium(1))


def torn_rows(media):
    """Old media whose banks differ: the set of the bank that is read is carried over, and no byte of them changes."""
    three, other = media.medium(1, *THREE), media.medium(1, "22 1 -/-", "9 1 1/-")
    bank = (len(three) - 2) // 2
    torn = {"behind bank A": three[:bank] + other[bank:-2] + b"\xa7\0",
            "in bank A": b"\xff" * bank + three[bank:-2] + b"\0\xa7",
            "in both, read from A": three[:bank] + b"\x3c" * bank + OPEN_GATES, "at gate B": three[:-1] + b"\x3c",
            "at gate A": three[:-2] + b"\xa6\xa7", "between two sets, read from A": three[:bank] + other[bank:],
            "between two sets, read from B": other[:bank] + three[bank:-2] + b"\0\xa7"}
    for name, old in torn.items():
        media.carried(f"a migration of a medium torn {name}", old, None, THREE)
        media.refused(f"a medium torn {name} beside a target in use", old, MEDIUM, IN_USE)


def word_rows(media):
    """The words behind `migrate`."""
    table, election, old = media.table, media.elections[2], media.medium(1, *THREE)
    media.lay(old, None)
    for more in ([], ["target", "b"], ["target", "target"], ["old"], [""], ["target", ""], ["-target"], ["-"],
                 ["--help"], ["--", "target"], [b"target\xff"]):
        table.row(f"migrate with the words {more}", ["old", election, "migrate", *more], USAGE)
        table.row(f"migrate with the words {more} under no election", ["old", "no.json", "migrate", *more], USAGE)
    for medium, path in (("-old", election), ("", election), ("old", ""), ("old", "-e")):
        table.row(f"migrate behind {medium!r} and {path[:2]!r}", [medium, path, "migrate", "target"], USAGE)
    media.stands("words that are no form", old, None)
    table.row("a migration under a missing election", ["old", "no.json", "migrate", "target"], ELECTION_FAULT)
    table.row("a migration under a medium", ["old", "old", "migrate", "target"], BAD_ELECTION)
    table.row("a migration of an election", [election, election, "migrate", "target"], DISK_FAULT)
    media.stands("elections that are none", old, None)
    for target in ("a b", "=", "migrate", "t-", "\u00e9"):
        (table.room / target).unlink(missing_ok=True)
        table.row(f"a migration into the target {target!r}", ["old", election, "migrate", target], OK,
                  output=b"migrated 3\n")
        table.same(f"the target {target!r}", (table.room / target).read_bytes(), MEDIUM)


def file_rows(media):
    """Files that are none, or in no folder."""
    table, election, old = media.table, media.elections[2], media.medium(1, *THREE)
    media.lay(old, b"")
    for target in (".", "no/such", "old/target", f"{election}/x"):
        table.row(f"a migration into {target[:12]}", ["old", election, "migrate", target], TARGET_FAULT)
    for medium, ending in {".": DISK_FAULT, "old/x": DISK_FAULT, "no/such": NO_STORE, "missing": NO_STORE}.items():
        table.row(f"a migration of {medium}", [medium, election, "migrate", "target"], ending)
        table.row(f"a migration of {medium} into a folder", [medium, election, "migrate", "./."], ending)
    media.stands("migrations of files that are none", old, b"")
    table.same("that no folder was made", (table.room / "no").exists(), False)


def name_rows(media):
    """The old medium under another name as target, and links to others."""
    table, election, old = media.table, media.elections[2], media.medium(1, *THREE)
    media.lay(old, b"")
    for link, kind in ((os.symlink, "soft"), (os.link, "hard")):
        for name in ("old", "target"):
            link(table.room / name, table.room / f"{name}.{kind}.link")
        for words in (["old", f"old.{kind}.link"], [f"old.{kind}.link", "old"], ["old", "./old"]):
            table.row(f"a migration into itself as {words}", [words[0], election, "migrate", words[1]], TARGET_FAULT)
        media.stands(f"migrations into itself by a {kind} link", old, b"")
        table.row(f"a migration by {kind} links", [f"old.{kind}.link", election, "migrate", f"target.{kind}.link"], OK,
                  output=b"migrated 3\n")
        media.stands(f"a migration by {kind} links", old, MEDIUM)
        (table.room / "target").write_bytes(b"")


def lock_rows(media):
    """Media that another run has. The old medium is shared with whoever reads it, and the target is needed alone."""
    table, old = media.table, media.medium(1, *THREE)
    into_other = [*media.words[:3], "other.target"]
    for which, version, words, ending in (("target", 2, media.words, TARGET_FAULT), ("old", 1, into_other, DISK_FAULT)):
        media.lay(old, MEDIUM)
        session = [media.program, which, media.elections[version], "session"]
        with waiting(session, b"open find 1\n", b"finding 1\n", table.room) as run:
            table.same(f"a session that has the {which}", run.told, b"finding 1\n")
            beside(table, f"a migration beside a session of the {which}", words, ending)
        media.stands(f"a session of the {which}", old, MEDIUM)
    table.same("that no target was made", (table.room / "other.target").exists(), False)
    for which, how, ending in (("old", fcntl.LOCK_SH, OK), ("old", fcntl.LOCK_EX, DISK_FAULT),
                               ("target", fcntl.LOCK_SH, TARGET_FAULT), ("target", fcntl.LOCK_EX, TARGET_FAULT)):
        media.lay(old, b"")
        with open(table.room / which, "rb") as file:
            fcntl.flock(file, how)
            name = f"a migration where the {which} is held {'shared' if how == fcntl.LOCK_SH else 'alone'}"
            beside(table, name, media.words, ending, b"" if ending[0] else b"migrated 3\n")
        media.stands(name, old, b"" if ending[0] else MEDIUM)


def held_up_rows(media):
    """A migration that has filled its target and cannot tell it, and who comes meanwhile."""
    table, old = media.table, media.medium(1, *THREE)
    media.lay(old, None)
    (table.room / "other.target").unlink(missing_ok=True)
    with untold([media.program, *media.words], table.room, media=2) as (run, reader):
        table.same("a migration shares the old medium, and has the target alone", locks_of(run), ["READ", "WRITE"])
        beside(table, "the same migration beside it", media.words, TARGET_FAULT)
        beside(table, "a migration into another target beside it", [*media.words[:3], "other.target"], OK,
               b"migrated 3\n")
        for command, which, version, ending in (("audit", "old", 1, OK), ("session", "old", 1, DISK_FAULT),
                                                ("audit", "target", 2, DISK_FAULT), ("init", "target", 2, DISK_FAULT)):
            beside(table, f"{command} of the {which} beside a migration", [which, media.elections[version], command],
                   ending, b"canonical 3\n" if ending == OK else b"")
        table.same("the end of a migration that was held up", ended(run, reader), (0, b"migrated 3\n"))
    media.stands("a migration that was held up", old, MEDIUM)
    table.same("the other target", (table.room / "other.target").read_bytes(), MEDIUM)


def read_only_rows(media):
    """An old medium that may only be read is carried over. A target that may only be read is a fault, whatever it
    holds."""
    table, old = media.table, media.medium(1, *THREE)
    folder = table.room / "of_nobody"
    folder.mkdir()
    shutil.copy(media.program, folder / "program")
    shutil.copyfile(media.elections[2], folder / "election")
    (folder / "program").chmod(0o755)
    (folder / "election").chmod(0o644)
    run = [folder / "program", "of_nobody/old", "of_nobody/election", "migrate", "of_nobody/target"]
    if os.geteuid() == 0:
        os.chmod(table.room, 0o755)
        os.chown(folder, NOBODY, NOBODY)
        run = ["setpriv", f"--reuid={NOBODY}", f"--regid={NOBODY}", "--clear-groups", *run]
    for name, target, ending in (("that is missing", None, OK), ("without a byte", b"", TARGET_FAULT),
                                 ("in use", MEDIUM, TARGET_FAULT), ("of a byte too many", bytes(867), TARGET_FAULT)):
        for medium, data in (("old", old), ("target", target)):
            (folder / medium).unlink(missing_ok=True)
            if data is not None:
                (folder / medium).write_bytes(data)
                (folder / medium).chmod(0o444)
        done = subprocess.run(run, cwd=table.room, capture_output=True)
        status, told = ending
        wanted = (status, b"", f"ballot_store: {told}\n".encode()) if status else (0, b"migrated 3\n", b"")
        found = done.returncode, done.stdout, done.stderr
        table.judge(f"a migration of a medium that may only be read into a target {name}", found, wanted)
        found = (folder / "old").read_bytes(), (folder / "target").read_bytes()
        wanted = old, MEDIUM if ending == OK else target
        table.same(f"the media after a migration into a target {name}", found, wanted)


def output_rows(media):
    """Nobody is told of the new medium."""
    table, old = media.table, media.medium(1, *THREE)
    env = {"E": media.elections[2]}
    for name, output in (("to a full device", ">/dev/full"), ("with its output closed", ">&-")):
        media.lay(old, b"")
        run = f'"$P" old "$E" migrate target {output}'
        table.shell(f"a migration {name}", run, WRITE_FAULT, env=env)
        media.stands(f"a migration {name}", old, MEDIUM)
        table.shell(f"the same migration again, {name}", run, IN_USE, env=env)
        media.stands(f"the same migration again, {name}", old, MEDIUM)


def form_rows(table, program, examples):
    """Elections that have no form in version 1: neither medium is looked at."""
    example = json.loads((examples / "election.json").read_text())
    full = {"contests": [{"choices": 4, "allowed": 1}] * 15 + [{"choices": 33, "allowed": 33}]}
    elections = {"of version 1": example | {"version": 1}, "without its version": example,
                 "of 17 contests": plain(17, 2, 2), "of 24 contests of 64 choices": plain(24, 64, 2),
                 "of 33 choices": plain(1, 33, 2), "of 33 choices in the last of 16 contests": plain(16, 4, 2) | full,
                 "of a county": json.loads((examples / "county.json").read_text())}
    for name, parts in elections.items():
        media = Media(table, program, example)
        media.words[1] = table.file("no_form.json", json.dumps(parts).encode())
        for old in (None, b"no store", media.medium(1, *THREE)):
            for target in (None, b"", MEDIUM, bytes(867)):
                kind = f"{old and len(old)} and {target and len(target)} bytes"
                media.refused(f"a migration under an election {name}, of media of {kind}", old, target, NO_OLD_FORM)
        for words in ([".", "target"], ["old", "."], [".", "./."]):
            table.row(f"a migration of {words} under an election {name}",
                      [words[0], media.words[1], "migrate", words[1]], NO_OLD_FORM)


def day_rows(media, examples):
    """The precinct of the examples: a day in version 1, and then a medium of version 2."""
    table = media.table
    table.row("a medium for a precinct", ["day", media.elections[1], "init"], OK, output=b"ready\n")
    script = (examples / "day_3_tabulators.session").read_bytes()
    replies = (examples / "day_3_tabulators.replies").read_bytes()
    table.row("a day of a precinct", ["day", media.elections[1], "session"], OK, script, replies)
    done = subprocess.run([media.program, "day", media.elections[1], "session"], input=b"export\n", capture_output=True,
                          cwd=table.room)
    held = done.stdout.decode().splitlines()[1:]
    table.same("the medium of a day of a precinct", (table.room / "day").read_bytes(), media.medium(1, *held))
    agreed(media, "a day of a precinct", held)
    chance, lines = random.Random(31), []
    for number in {chance.randrange(1, 2**64) for _ in range(2400)}:
        nine = ",".join(map(str, sorted(chance.sample(range(1, 10), chance.randrange(1, 9)))))
        style, last = chance.choice(((1, "-"), (1, "1"), (1, "1,2"), (2, "-")))
        lines.append(f"{number} {style} {chance.choice(('-', '1', '4'))}/{nine}/{last}")
    agreed(media, "a precinct whose store is full", lines)


def wide_rows(media):
    """The most contests and choices that have a form in version 1."""
    every, groups = ",".join(map(str, range(1, 33))), ["-"] * 15
    lines = [f"{2**64 - 1} 1 " + "/".join([every] * 16), "1 1 " + "/".join(["32"] * 16), "2 1 " + "/".join(["1"] * 16)]
    lines += [f"{k * 0x9E3779B97F4A7C15 % 2**64} 1 " + "/".join([*groups[:k % 16], str(k), *groups[k % 16:]])
              for k in range(1, 33)]
    agreed(media, "16 contests of 32 choices", lines)
    style = {"styles": [[1 + k % 16] for k in range(255)]}
    parts = Media(media.table, media.program, media.parts[1] | style)
    lines = [f"{k} {style} " + "/".join([*groups[:(style - 1) % 16], "31,32", *groups[(style - 1) % 16:]])
             for k, style in enumerate((1, 16, 17, 128, 254, 255), 1)]
    agreed(parts, "255 styles", lines)


def full_rows(media):
    """A full store of the largest form in version 1, in one step. The marks are few, so that a row is made fast."""
    lines = []
    for k in range(1, 32769):
        groups = [str(1 + (k + place) % 32) for place in range(16)]
        lines.append(f"{k * 0x9E3779B97F4A7C15 % 2**64} 1 {'/'.join(groups if k % 7 else groups[:1] + ['-'] * 15)}")
    media.carried("a full store of 16 contests of 32 choices", media.medium(1, *lines), b"", lines)
    media.table.row("the audit of a full store of version 2", ["target", media.elections[2], "audit"], OK,
                    output=b"canonical 32768\n")
