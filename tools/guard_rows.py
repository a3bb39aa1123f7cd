"""The cases of `check_program` on what may be a medium: a regular file that is not the election, of which a command
that writes it may write, and which it has by one name."""

import contextlib
import os
import re
import select
import shutil
import socket
import subprocess
import tempfile
from collections.abc import Callable, Iterator
from pathlib import Path
from typing import Any

from guarded_runs import (
    COMMANDS,
    CONTENTS,
    DISK_FAULT,
    FURTHER,
    NO_STORE,
    NO_STORES,
    OK,
    Case,
    Command,
    Ending,
    Found,
    Room,
    Table,
    fault_at,
    in_room,
    places,
    refusal,
    run,
    said,
    snapshot,
    text,
    why_no_trace,
)

NOBODY = 65534
AS_NOBODY: dict[str, Any] = {"user": NOBODY, "group": NOBODY, "extra_groups": []} if os.geteuid() == 0 else {}
READ_ONLY, WRITE_ONLY = 0o444, 0o200
# mounts a folder to be read alone, and runs the words behind it
SEAL = 'd=$1; shift; mount --bind "$d" "$d" && mount -o remount,bind,ro "$d" && exec "$@"'


def guard_rows(table: Table, program: Path, examples: Path) -> None:
    """All cases."""
    with in_room(table, program, examples) as room:
        for rows in (
            kind_rows,
            loop_rows,
            opened_rows,
            stream_rows,
            election_rows,
            election_size_rows,
            untouched_rows,
            sealed_rows,
            sealed_target_rows,
            mounted_rows,
            unread_rows,
            name_rows,
            missing_name_rows,
            audit_cost_rows,
            checkpoint_cost_rows,
        ):
            rows(room)


def contents(command: Command) -> tuple[str, ...]:
    """What the other media of a command may hold, where it has any."""
    return CONTENTS if command.media > 1 else ("whole",)


def named(name: str) -> Command:
    """The command of this title."""
    return next(command for command in COMMANDS if command.title == name)


@contextlib.contextmanager
def bound(path: Path) -> Iterator[None]:
    """A socket of this path. (Its name has to be short.)"""
    here = os.getcwd()
    with socket.socket(socket.AF_UNIX) as listener:
        os.chdir(path.parent)
        try:
            listener.bind(path.name)
        finally:
            os.chdir(here)
        yield


DEVICES = {name: f"/dev/{name}" for name in ("null", "zero", "full", "tty")}
KINDS = ("folder", "pipe", "socket", "loop of links", "link to a folder", *DEVICES)


def kind_rows(room: Room) -> None:
    """A folder, a pipe, a socket and devices in each place. None of them is waited for."""
    for command, index in places():
        for content in contents(command):
            for kind in KINDS:
                case, ending = room.case(command).lay(content, but=index), refusal(command, index, content)
                name, path = f"{kind} as {command.place(index)}, beside {content} media", case.path(index)
                if kind == "folder":
                    path.mkdir()
                elif kind == "loop of links":
                    path.symlink_to("medium")
                elif kind == "link to a folder":
                    path.symlink_to("..")
                elif kind in DEVICES:
                    case.words[index] = DEVICES[kind]
                if kind == "pipe":
                    pipe_row(room, case, path, name, content, ending)
                else:
                    with bound(path) if kind == "socket" else contextlib.nullcontext():
                        room.spared(name, case, content, ending)


def pipe_row(room: Room, case: Case, path: Path, name: str, content: str, ending: Ending) -> None:
    """A pipe with a name, of which a reader sees that it was never opened to be written."""
    os.mkfifo(path)
    reader = os.open(path, os.O_RDONLY | os.O_NONBLOCK)
    try:
        room.spared(name, case, content, ending)
        watch = select.poll()
        watch.register(reader, select.POLLIN)
        room.table.same(f"that nobody opened the {name}", watch.poll(0), [])
    finally:
        os.close(reader)


def loop_rows(room: Room) -> None:
    """A device of blocks, over a file that could be a medium: no byte of it changes."""
    image = room.folder / "image"
    image.write_bytes(bytes(4096))
    found = None
    if os.geteuid() == 0 and shutil.which("losetup"):
        found = subprocess.run(["losetup", "--find", "--show", image], capture_output=True, text=True)
    if found is None or found.returncode:
        why = found.stderr.strip() if found else "it takes root, and losetup"
        room.table.leave_out("a device of blocks as medium", why)
        return
    device = found.stdout.strip()
    try:
        for command, index in places():
            for content in contents(command):
                case = room.case(command).lay(content, but=index)
                case.words[index] = device
                name = f"a device of blocks as {command.place(index)}, beside {content} media"
                room.spared(name, case, content, refusal(command, index, content))
    finally:
        subprocess.run(["losetup", "--detach", device], check=True)
    room.table.same("the bytes of a device of blocks", image.read_bytes(), bytes(4096))


def opened_rows(room: Room) -> None:
    """What is no regular file, or the election, is looked at once, and not opened as a medium."""
    if why := why_no_trace():
        room.table.leave_out("which files are opened", why)
        return
    for command, index in places():
        for word in ("/dev/null", "/dev/zero", "folder", "election.json"):
            case = room.case(command).lay("whole", but=index)
            (case.folder / "folder").mkdir()
            case.words[index] = word
            traced = case.traced(case.script("whole"), room.log)
            room.table.judge(f"{word} as {command.place(index)}, traced", traced.end(), said(fault_at(index)))
            counted = [opens(traced.told(), word), looks(traced.told(), word)]
            # the election is read; and each run opens and closes /dev/null, so that its streams have their numbers
            wanted = [word in ("election.json", "/dev/null"), 1 + (word == "election.json")]
            room.table.same(f"how often {word} as {command.place(index)} is opened and looked at", counted, wanted)


def of_path(line: str, call: str, word: str) -> bool:
    """Whether a line of a log is this call on a path."""
    return f" {call}(AT_FDCWD" in line and f' "{word}",' in line


def opens(log: list[str], word: str) -> int:
    """How often a path was opened."""
    return sum(of_path(line, "openat", word) for line in log)


def looks(log: list[str], word: str) -> int:
    """How often a path was looked at, without opening it."""
    return sum(of_path(line, call, word) for line in log for call in ("statx", "newfstatat"))


def stream_rows(room: Room) -> None:
    """Paths that lead to an open file are judged by what that is."""
    case = room.case(named("audit")).lay("whole")
    os.mkfifo(case.folder / "pipe")
    good: Found = (0, b"canonical 3\n", b"")
    sources = {"0/medium": good, "pipe": said(DISK_FAULT), ".": said(DISK_FAULT), "election.json": said(DISK_FAULT)}
    for word, number in (("/dev/stdin", 0), ("/proc/self/fd/0", 0), ("/proc/self/fd/3", 3), ("/dev/fd/3", 3)):
        for source, wanted in sources.items():
            how = "<" if source == "." else "<>"
            line = f'"{case.program}" {word} election.json audit {number}{how}{source}'
            found = run(["bash", "-c", line], b"", case.folder)
            room.table.judge(f"an audit of {word} that is {source}", found, wanted)
    # where the system shows the open files of a run, no folder can be synced, and so nothing is written by such a path
    lines = [
        f"{word} election.json {command} {number}<>{source}"
        for source in ("pipe", "election.json", "0/medium")
        for command, word, number in (
            ("init", "/dev/stdin", 0),
            ("init", "/proc/self/fd/3", 3),
            ("session", "/proc/self/fd/3", 3),
            ("session", "/dev/fd/3", 3),
        )
    ]
    for line in lines:
        if line != "/dev/stdin election.json init 0<>0/medium":
            before = snapshot(case.folder)
            found = run(["bash", "-c", f'"{case.program}" {line}'], b"", case.folder)
            room.table.judge(line, found, said(DISK_FAULT))
            room.table.same(f"all files after {line}", snapshot(case.folder), before)


def linked(case: Case, link: Callable[[Path, Path], None], path: Path) -> str:
    """Another name of a file of the case."""
    link(path, case.folder / "other_name")
    return "other_name"


SPELLINGS: dict[str, Callable[[Case], str]] = {
    "by its word": lambda case: "election.json",
    "by a longer word": lambda case: "./0/../election.json",
    "by its whole path": lambda case: str(case.election),
    "by a link": lambda case: linked(case, os.symlink, case.election),
    "by another name": lambda case: linked(case, os.link, case.election),
}


def election_rows(room: Room) -> None:
    """The election's own file in each place: it is a fault of that disk, and nothing is written."""
    for command, index in places():
        for content in contents(command):
            for spelling, word in SPELLINGS.items():
                case = room.case(command).lay(content, but=index)
                case.words[index] = word(case)
                name = f"the election {spelling} as {command.place(index)}, beside {content} media"
                room.spared(name, case, content, refusal(command, index, content))


def election_size_rows(room: Room) -> None:
    """Elections of a medium's size and of more, in each place, and under a link as the election's word."""
    for command, index in places():
        for size, more in (("of a medium's size", 0), ("above a medium's size", 1)):
            for spelling, word in SPELLINGS.items():
                case = room.case(command).lay("whole", but=index)
                length = len(case.media.data("whole", index)) + more
                case.election.write_text(case.election.read_text().ljust(length))
                (case.folder / "link.json").symlink_to(case.election)
                case.words[index] = word(case)
                election = "election.json" if spelling == "by its word" else "link.json"
                name = f"an election {size} {spelling} as {command.place(index)}"
                room.spared(name, case, "whole", refusal(command, index, "whole"), election)


def untouched_rows(room: Room) -> None:
    """Commands that do not touch the medium take any file for it, also the election."""
    for name, script, output in (("build", b"", None), ("replay", b"start\ncast 1\n", b"steps 0\nrest\n")):
        for word in ("election.json", "0", "pipe", "/dev/zero"):
            case = room.case(Command(name))
            os.mkfifo(case.folder / "pipe")
            case.words[0], before = word, snapshot(case.folder)
            found = run([str(case.program), *case.line()], script, case.folder)
            wanted = case.media.data("whole", 0)[:32] + bytes(272) if output is None else output
            room.table.judge(f"{name} with {word} as medium", found, (0, wanted, b""))
            room.table.same(f"all files after {name} with {word} as medium", snapshot(case.folder), before)


def sealed_outcome(case: Case, index: int, content: str) -> tuple[Ending, bytes, list[bytes]]:
    """How a run ends, what it writes and what the media are then, where that of this place may only be read."""
    command = case.command
    if index not in command.written:
        return case.media.outcome(content)
    reads_first = command.name == "part" or index > 0 and command.name in FURTHER
    ending = NO_STORE if reads_first and content in NO_STORES else fault_at(index)
    return ending, b"", case.media.all_data(content)


def give_away(case: Case) -> None:
    """Gives a case to a user whom modes bind, where root runs this."""
    if AS_NOBODY:
        for path in (case.folder, *case.folder.rglob("*")):
            os.chown(path, NOBODY, NOBODY)


def sealed_rows(room: Room) -> None:
    """A medium that may only be read by its mode, for a user whom the mode binds."""
    for command, index in places():
        for content in CONTENTS:
            case = room.case(command).lay(content)
            give_away(case)
            case.path(index).chmod(READ_ONLY)
            ending, told, data = sealed_outcome(case, index, content)
            name = f"{content} media of which {command.place(index)} may only be read"
            room.table.judge(name, case.run(content, **AS_NOBODY), said(ending, told))
            room.table.same(f"all media after {name}", case.found(), data)


def sealed_target_rows(room: Room) -> None:
    """A target of `migrate` that may only be read, also one that is in use or too large."""
    for name, data in (("no byte", b""), ("three ballots", None), ("too many bytes", bytes(867))):
        case = room.case(named("migrate")).lay("whole")
        target = case.media.data("whole", 1) if data is None else data
        case.path(1).write_bytes(target)
        give_away(case)
        case.path(1).chmod(READ_ONLY)
        room.table.judge(f"a target of {name} that may only be read", case.run("whole", **AS_NOBODY), said(fault_at(1)))
        room.table.same(f"the target of {name} that may only be read", case.path(1).read_bytes(), target)


def mount_words() -> list[str]:
    """The words before a run in which a folder is mounted to be read alone, where that is permitted."""
    for words in (["unshare", "--mount"], ["unshare", "--map-root-user", "--mount"]):
        with tempfile.TemporaryDirectory() as folder, contextlib.suppress(FileNotFoundError):
            done = subprocess.run(
                [*words, "bash", "-c", SEAL, "seal", folder, "touch", f"{folder}/file"],
                capture_output=True,
                text=True,
                env={**os.environ, "LC_ALL": "C"},
            )
            if "Read-only file system" in done.stderr:
                return words
    return []


def mounted_rows(room: Room) -> None:
    """A medium in a folder that is mounted to be read alone."""
    words = mount_words()
    if not words:
        room.table.leave_out("media on a mount that may only be read", "unshare may not mount here")
        return
    for command, index in places():
        for content in CONTENTS:
            case = room.case(command).lay(content)
            line = ["bash", "-c", SEAL, "seal", str(case.path(index).parent), str(case.program), *case.line()]
            ending, told, data = sealed_outcome(case, index, content)
            name = f"{content} media of which {command.place(index)} is mounted to be read alone"
            room.table.judge(name, run([*words, *line], case.script(content), case.folder), said(ending, told))
            room.table.same(f"all media after {name}", case.found(), data)


def unread_rows(room: Room) -> None:
    """A medium that may be written and not read, and one in a folder that may not be entered."""
    for command, index in places():
        for name, at, mode in (("may not be read", "medium", WRITE_ONLY), ("is in a folder of others", "", 0)):
            case = room.case(command).lay("whole")
            give_away(case)
            path = case.path(index).parent / at
            path.chmod(mode)
            found = case.run("whole", **AS_NOBODY)
            path.chmod(0o755)
            name = f"{command.place(index)} that {name}"
            room.table.judge(name, found, said(fault_at(index)))
            room.table.same(f"all media after {name}", case.found(), case.media.all_data("whole"))


NAMES: dict[str, Callable[[Case], str]] = {
    "by a link": lambda case: linked(case, os.symlink, case.path(0)),
    "by another name": lambda case: linked(case, os.link, case.path(0)),
    "by a longer word": lambda case: "0/../0/medium",
    "by its whole path": lambda case: str(case.path(0)),
}


def named_twice(case: Case, index: int, content: str) -> Ending:
    """How a run ends in which this medium is the first one by another name."""
    command, lines = case.command.name, case.media.lines(content, 0)
    if content in NO_STORES and command in FURTHER:
        return NO_STORE
    if command == "part" and lines:
        return 23, f"medium {index} misplaced {lines[0].split(' ')[0]}"
    return fault_at(0 if command == "part" else index)


def name_rows(room: Room) -> None:
    """Two names of one file in one command, which holds what is told, or no ballot."""
    for command, index in places():
        for content in ("no ballot", *CONTENTS) if index else ():
            for spelling, word in NAMES.items():
                case = room.case(command).lay(content, but=index)
                case.words[index] = word(case)
                name = f"{command.place(index)} that is the first one {spelling}, of {content} media"
                room.spared(name, case, content, named_twice(case, index, content))


def missing_name_rows(room: Room) -> None:
    """A link that leads to no file counts as a medium that is missing, and no file is made where it leads."""
    for command, index in places():
        case = room.case(command).lay("whole", but=index)
        case.path(index).symlink_to("missing")
        ending: Ending = (20, f"medium {index} no store") if index else NO_STORE
        if command.name in ("init", "twin") or command.name == "migrate" and index:
            ending = fault_at(index)
        room.spared(f"{command.place(index)} that is a link to no file", case, "whole", ending)


def number_of(line: str) -> str:
    """The number of the open file that a call is on, which stands first."""
    return re.sub(r"^\d+ +\w+\((\d*).*$", r"\1", line)


def audit_cost_rows(room: Room) -> None:
    """An audit looks once at the path, once at the open file, which is then asked for its size, and once at the
    election; all else is as it was without these looks."""
    if why := why_no_trace():
        room.table.leave_out("the calls of an audit", why)
        return
    for content in ("whole", "filled"):
        case = room.case(named("audit")).lay(content)
        traced = case.traced(b"", room.log)
        ending, told, _ = case.media.outcome(content)
        room.table.judge(f"an audit of a {content} medium, traced", traced.end(), said(ending, told))
        log = traced.told()
        calls = [
            re.sub(r"^\d+ +(\w+)\(.*$", r"\1", line)
            for line in log
            if of_path(line, "openat", "0/medium") or f"({number_of(line)}<{case.path(0)}>" in line
        ]
        wanted = ["openat", "statx", "flock", "statx", *["pread64"] * 3]
        room.table.same(f"the calls of an audit of a {content} medium", calls, wanted)
        counted = [looks(log, "0/medium"), looks(log, "election.json"), opens(log, "election.json")]
        room.table.same(f"the looks of an audit of a {content} medium at paths", counted, [1, 1, 1])


def checkpoint_cost_rows(room: Room) -> None:
    """Ten checkpoints look at a path once when it is opened, and once behind each sync of the file."""
    if why := why_no_trace():
        room.table.leave_out("the calls of a checkpoint", why)
        return
    for title in ("session", "twin", "part of 4"):
        case = room.case(named(title)).lay("whole")
        count = len(case.media.held("whole"))
        told = text(*["media equal"] * (title == "twin"), *[f"checkpoint {count}"] * 10)
        traced = case.traced(text(*["checkpoint"] * 10), room.log)
        room.table.judge(f"ten checkpoints of {title}, traced", traced.end(), said(OK, told))
        log = traced.told()
        for index, word in enumerate(case.words):
            syncs = sum(f"sync({number_of(line)}<{case.path(index)}>" in line for line in log)
            room.table.same(f"that medium {index} of {title} was synced", syncs > 60, True)
            room.table.same(f"the looks at medium {index} of {title} for {syncs} syncs", looks(log, word), 1 + syncs)
