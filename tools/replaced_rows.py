"""The cases of `check_program` on a medium that is removed, renamed or replaced while a run has it: nothing is
acknowledged from then on, and no other file changes."""

import itertools
import os
import re
import shutil
import subprocess
import threading
from collections.abc import Callable, Sequence
from pathlib import Path
from typing import NamedTuple

from guard_rows import mount_words
from guarded_runs import (
    COMMANDS,
    CONTENTS,
    LONGEST,
    OK,
    SCRIPTED,
    Case,
    Command,
    Ending,
    Found,
    Media,
    Room,
    Table,
    fault_at,
    in_room,
    said,
    snapshot,
    text,
    why_no_trace,
)

Harm = Callable[[Path, bytes], None]


def replace(path: Path, data: bytes) -> None:
    """Puts another file in the place of this one."""
    new = path.with_name("new")
    new.write_bytes(data)
    new.replace(path)


def other_medium(data: bytes) -> bytes:
    """A medium of the same size, of an election with another salt."""
    half = (len(data) - 2) // 2
    bank = data[:23] + b"\x77" + data[24:half]
    return bank * 2 + data[-2:]


def renamed(path: Path, _: bytes) -> None:
    """The medium gets another name."""
    path.rename(path.with_name("away"))


def removed(path: Path, _: bytes) -> None:
    """The medium has no name left."""
    path.unlink()


def replaced_by_copy(path: Path, data: bytes) -> None:
    """A file of the same bytes takes its name."""
    replace(path, data)


def replaced_by_other(path: Path, data: bytes) -> None:
    """The medium of another election takes its name."""
    replace(path, other_medium(data))


def replaced_twice(path: Path, data: bytes) -> None:
    """Two files take its name, one after the other."""
    replace(path, other_medium(data))
    replace(path, data)


def made_a_folder(path: Path, _: bytes) -> None:
    """A folder takes its name."""
    path.rename(path.with_name("away"))
    path.mkdir()


def made_a_loop(path: Path, _: bytes) -> None:
    """A link that leads to itself takes its name."""
    path.rename(path.with_name("away"))
    path.symlink_to("medium")


def folder_renamed(path: Path, _: bytes) -> None:
    """The folder that it lies in gets another name."""
    path.parent.rename(path.parent.with_name(f"{path.parent.name}.away"))


def folder_replaced(path: Path, data: bytes) -> None:
    """Another folder, with a copy, takes the name of its folder."""
    folder_renamed(path, data)
    path.parent.mkdir()
    path.write_bytes(data)


HARMS: tuple[Harm, ...] = (
    removed,
    renamed,
    replaced_by_copy,
    replaced_by_other,
    replaced_twice,
    made_a_folder,
    made_a_loop,
    folder_renamed,
    folder_replaced,
)


def put_back(path: Path, _: bytes) -> None:
    """The medium is renamed and put back."""
    away = path.rename(path.with_name("away"))
    away.rename(path)


def led_back(path: Path, _: bytes) -> None:
    """The medium is renamed, and a link in its place leads to it."""
    path.rename(path.with_name("away"))
    path.symlink_to("away")


def named_again(path: Path, _: bytes) -> None:
    """Another name of the medium takes the place of its name."""
    os.link(path, path.with_name("new"))
    path.unlink()
    path.with_name("new").rename(path)


def folder_put_back(path: Path, data: bytes) -> None:
    """The folder that it lies in is renamed and put back."""
    folder_renamed(path, data)
    path.parent.with_name(f"{path.parent.name}.away").rename(path.parent)


HARMLESS: tuple[Harm, ...] = (put_back, led_back, named_again, folder_put_back)


def title_of(harm: Harm) -> str:
    """What a harm is called in the names of rows."""
    return str(getattr(harm, "__name__")).replace("_", " ")


def replaced_rows(table: Table, program: Path, examples: Path) -> None:
    """All cases."""
    with in_room(table, program, examples) as room:
        for rows in (
            phase_rows,
            harmless_rows,
            linked_rows,
            link_rows,
            last_rows,
            compared_rows,
            stick_rows,
            stopped_rows,
        ):
            rows(room)


class Files:
    """The files of the media of a case, whatever their names are later; one may be missing."""

    def __init__(self, case: Case):
        self.folder = case.folder
        paths = [case.path(index) for index in range(case.command.media)]
        self.files = [os.open(path, os.O_RDONLY) if path.exists() else None for path in paths]
        self.kept = [os.fstat(file) for file in self.files if file is not None]

    def data(self, index: int) -> bytes:
        """What the file of this medium has now."""
        file = self.files[index]
        return os.pread(file, os.fstat(file).st_size + 1, 0) if file is not None else b""

    def others(self) -> dict[str, object]:
        """All files of the case that are none of these."""
        mine = [(one.st_dev, one.st_ino) for one in self.kept]
        found = snapshot(self.folder)
        seen = {name: (self.folder / name).lstat() for name in found}
        return {name: what for name, what in found.items() if (seen[name].st_dev, seen[name].st_ino) not in mine}

    def close(self) -> None:
        """Lets them go."""
        for file in self.files:
            if file is not None:
                os.close(file)


def held_bank(data: bytes) -> bytes:
    """The bank that is read of the bytes of a medium: the first with an open gate."""
    half = (len(data) - 2) // 2
    return data[:half] if data[-2] == 0xA7 else data[half:-2] if data[-1] == 0xA7 else b""


class Talk:
    """A run that is given its script line by line, as its replies come."""

    def __init__(self, case: Case, before: Sequence[str] = ()):
        pipe = subprocess.PIPE
        words = [*before, str(case.program), *case.line()]
        self.process = subprocess.Popen(words, cwd=case.folder, stdin=pipe, stdout=pipe, stderr=pipe)
        self.watch = threading.Timer(LONGEST, self.process.kill)
        self.watch.daemon = True
        self.watch.start()

    def say(self, lines: list[str], replies: list[str]) -> bytes:
        """Says some lines, and reads as much as these replies have."""
        assert self.process.stdin and self.process.stdout
        try:
            self.process.stdin.write(text(*lines))
            self.process.stdin.flush()
        except BrokenPipeError:
            pass
        return self.process.stdout.read(len(text(*replies)))

    def end(self, lines: list[str]) -> Found:
        """Says the last lines."""
        output, error = self.process.communicate(text(*lines))
        self.watch.cancel()
        return self.process.returncode, output, error


MOMENTS = ("in a phase", "between checkpoints")


def lines_around(media: Media, content: str, moment: str) -> tuple[list[str], list[str], list[str], list[str]]:
    """The lines and the replies of a session before a moment, and those behind it."""
    lines, replies = media.script(content)
    if moment == MOMENTS[0]:
        return lines[:5], replies[:4], lines[5:], replies[4:]
    again, count = media.exchanged(content)[1].split(" ")[0], len(media.held(content))
    more = ["open withdraw 1", f"withdraw 1 {again}", "close", "checkpoint"]
    return lines, replies, more, ["withdrawing 1", "1 1 withdrawn", f"closed {count - 1}", f"checkpoint {count - 1}"]


def sessions() -> list[tuple[Command, int]]:
    """The places of the commands that read a script and write their media."""
    return [(command, index) for command in COMMANDS if command.name in SCRIPTED for index in range(command.media)]


def begin(
    case: Case, content: str, moment: str, words: Sequence[str] = ()
) -> tuple[Talk, bytes, bytes, list[str], list[str]]:
    """A run up to a moment: what it has told, what it should have, and the rest of its lines and replies."""
    before, told, rest, replies = lines_around(case.media, content, moment)
    told = ["media equal"] * (case.command.name == "twin") + told
    talk = Talk(case, words)
    return talk, talk.say(before, told), text(*told), rest, replies


def phase_rows(room: Room) -> None:
    """Each harm to each medium of a session, in a phase and between two checkpoints."""
    turn = 0
    for command, index in sessions():
        for harm in HARMS:
            for moment in MOMENTS:
                turn += 1
                harmed_row(room, command, index, harm, moment, ("whole", "filled")[turn // 3 % 2])


def harmed_row(room: Room, command: Command, index: int, harm: Harm, moment: str, content: str) -> None:
    """A harm to a medium of a session, which then ends at the first sync of that medium."""
    case, table = room.case(command).lay(content), room.table
    name = f"{command.place(index)}, {content}, {title_of(harm)} {moment}"
    files = Files(case)
    talk, found, wanted, rest, replies = begin(case, content, moment)
    table.same(f"the replies before {name}", found, wanted)
    harm(case.path(index), files.data(index))
    before = files.others()
    table.judge(name, talk.end(rest), said(fault_at(index), text(*replies[:-1])))
    table.same(f"all other files after {name}", files.others(), before)
    for at in range(index, command.media):  # the parts before have had their checkpoint
        acknowledged = case.media.data(content, at) if moment == MOMENTS[0] else case.media.after(content, at)
        table.same(f"what {command.place(at)} holds after {name}", held_bank(files.data(at)), held_bank(acknowledged))
    files.close()


def harmless_rows(room: Room) -> None:
    """A path that leads to the medium again at the next sync: the session goes on."""
    for command, index in sessions():
        for number, harm in enumerate(HARMLESS):
            for moment in MOMENTS:
                content = ("whole", "filled")[number % 2]
                case = room.case(command).lay(content)
                name = f"{command.place(index)}, {content}, {title_of(harm)} {moment}"
                talk, found, wanted, rest, replies = begin(case, content, moment)
                harm(case.path(index), b"")
                room.table.judge(name, talk.end(rest), said(OK, text(*replies)))
                room.table.same(f"the replies before {name}", found, wanted)
                data = [case.media.after(content, at, moment == MOMENTS[1]) for at in range(command.media)]
                room.table.same(f"the media after {name}", case.found(), data)


def last_rows(room: Room) -> None:
    """A harm behind the last checkpoint of a script: no sync follows, and the run ends as if nothing had been."""
    for command, index in sessions():
        for harm in (removed, replaced_by_copy):
            case = room.case(command).lay("whole")
            files = Files(case)
            talk, found, wanted, _, _ = begin(case, "whole", MOMENTS[1])
            harm(case.path(index), files.data(index))
            before, name = files.others(), f"{command.place(index)}, {title_of(harm)} behind the last checkpoint"
            room.table.judge(name, talk.end([]), said(OK))
            room.table.same(f"the replies before {name}", found, wanted)
            room.table.same(f"the file after {name}", files.data(index), case.media.after("whole", index))
            room.table.same(f"all other files after {name}", files.others(), before)
            files.close()


def compared_rows(room: Room) -> None:
    """A medium that is only read is not looked at again: a comparison goes on."""
    command = next(one for one in COMMANDS if one.name == "compare")
    for harm in HARMS:
        case = room.case(command).lay("whole")
        files = Files(case)
        talk = Talk(case)
        found = talk.say(["x"], ["line 1 malformed"])
        harm(case.path(0), files.data(0))
        before, name = files.others(), f"a comparison whose medium is {title_of(harm)}"
        room.table.judge(name, talk.end(["y"]), said(OK, text("line 2 malformed", "missing 2")))
        room.table.same(f"the first reply of {name}", found, text("line 1 malformed"))
        room.table.same(
            f"all files after {name}", (files.others(), files.data(0)), (before, case.media.data("whole", 0))
        )
        files.close()


def by_link(case: Case, index: int) -> None:
    """A medium that is reached by a link."""
    case.path(index).rename(case.folder / f"real{index}")
    case.path(index).symlink_to(f"../real{index}")


def by_links(case: Case, index: int) -> None:
    """A medium that is reached by two links, and a folder by one."""
    by_link(case, index)
    case.path(index).rename(case.path(index).with_name("link"))
    case.path(index).symlink_to("link")
    (case.folder / f"folder{index}").symlink_to(str(index))
    case.words[index] = f"folder{index}/medium"


def by_other_name(case: Case, index: int) -> None:
    """A medium with two names."""
    os.link(case.path(index), case.folder / f"real{index}")


def by_whole_path(case: Case, index: int) -> None:
    """A medium by its whole path."""
    case.words[index] = str(case.path(index))


def linked_rows(room: Room) -> None:
    """Media by links and by a hard link serve each command as by their names, whatever they hold."""
    for command in COMMANDS:
        for content in CONTENTS:
            for way in (by_link, by_links, by_other_name, by_whole_path):
                case = room.case(command).lay(content)
                for index in range(command.media):
                    way(case, index)
                ending, told, data = case.media.outcome(content)
                name = f"{command.title} on {content} media {way.__name__.replace('_', ' ')}"
                room.table.judge(name, case.run(content), said(ending, told))
                room.table.same(f"the media after {name}", case.found(), data)
                links = [case.path(index).is_symlink() for index in range(command.media)]
                room.table.same(f"the links after {name}", links, [way in (by_link, by_links)] * command.media)


def led_elsewhere(path: Path, data: bytes) -> None:
    """A link comes to lead to a copy."""
    (path.parent / "copy").write_bytes(data)
    path.with_name("new").symlink_to("copy")
    path.with_name("new").replace(path)


def replaced_behind(path: Path, data: bytes) -> None:
    """The file that a link leads to is replaced by a copy."""
    replace(path.resolve(), data)


def removed_behind(path: Path, _: bytes) -> None:
    """The file that a link leads to is removed."""
    path.resolve().unlink()


def link_rows(room: Room) -> None:
    """A link to a medium that comes to lead elsewhere, and a medium that is replaced behind its link."""
    for command, index in sessions():
        for harm in (led_elsewhere, replaced_behind, removed_behind, removed):
            for moment in MOMENTS:
                case = room.case(command).lay("whole")
                by_link(case, index)
                files = Files(case)
                talk, found, wanted, rest, replies = begin(case, "whole", moment)
                harm(case.path(index), files.data(index))
                before, name = files.others(), f"the link of {command.place(index)}, {title_of(harm)} {moment}"
                room.table.judge(name, talk.end(rest), said(fault_at(index), text(*replies[:-1])))
                room.table.same(f"the replies before {name}", found, wanted)
                room.table.same(f"all other files after {name}", files.others(), before)
                files.close()


# a file system in memory is mounted in the folder of a medium, with a copy of it
STICK = 'mount -t tmpfs tmpfs "$1" && cp copy "$1/medium"'


def stick_rows(room: Room) -> None:
    """Another file system is mounted where the medium lay, as when a stick is pulled and another one put in: its file
    may have the same number as the medium had."""
    words = mount_words()
    if not words or not shutil.which("nsenter"):
        room.table.leave_out(
            "media on a device that is exchanged", "unshare may not mount here, or there is no nsenter"
        )
        return
    for command, index in sessions():
        case = room.case(command).lay("whole")
        case.path(index).rename(case.folder / "copy")
        run_there = [*words, "bash", "-c", STICK + ' && shift && exec "$@"', "stick", str(index)]
        talk, found, wanted, rest, replies = begin(case, "whole", MOMENTS[0], run_there)
        numbers = [number_inside(talk.process.pid, words, case, index, "true")]
        numbers.append(number_inside(talk.process.pid, words, case, index, STICK))
        name = f"{command.place(index)} on a device that is exchanged"
        room.table.judge(name, talk.end(rest), said(fault_at(index), text(*replies[:-1])))
        room.table.same(f"the replies before {name}", found, wanted)
        if len(set(numbers)) != 1:
            room.table.leave_out(f"{name} for one with a file of the same number", f"the numbers are {numbers}")


def number_inside(pid: int, words: Sequence[str], case: Case, index: int, then: str) -> str:
    """Does something among the mounts of a run, and tells the number of a medium there."""
    enter = ["nsenter", f"--target={pid}", "--mount"]
    if "--map-root-user" in words:
        enter += ["--user", "--preserve-credentials"]
    line = [*enter, "bash", "-c", f'cd "$2" && {then} && stat -c %i "$1/medium"', "stick", str(index), str(case.folder)]
    return subprocess.run(line, capture_output=True, text=True).stdout.strip()


class Sync(NamedTuple):
    """A sync of a run: of which medium it is, and which media were open and what was written before it."""

    medium: int
    call: str
    number: int
    opened: frozenset[int]
    output: bytes


def syncs_of(case: Case, log: list[str]) -> list[Sync]:
    """The syncs of a run, in order. That of a folder counts as one of its medium."""
    found: list[Sync] = []
    calls: list[str] = []
    opened: set[int] = set()
    output = b""
    paths = [case.path(index) for index in range(case.command.media)]
    for line in log:
        if wrote := re.match(r'^\d+ +write\(1<[^"]*"(.*)", \d+\)', line):
            output += wrote[1].encode().decode("unicode_escape").encode("latin-1")
        opened |= {index for index, path in enumerate(paths) if "openat(" in line and line.endswith(f"<{path}>")}
        if synced := re.match(r"^\d+ +(fsync|fdatasync)\(\d+<([^>]*)>", line):
            calls.append(synced[1])
            medium = next(index for index, path in enumerate(paths) if Path(synced[2]) in (path, path.parent))
            found.append(Sync(medium, synced[1], calls.count(synced[1]), frozenset(opened), output))
    return found


# how the media of a command lie where not all are whole
STARTS = {
    "init": ("empty", "short", "missing"),
    "migrate": ("whole", "missing"),
    "twin": ("whole", "lost", "missing"),
    "merge": ("differing",),
}


def laid(room: Room, command: Command, start: str) -> Case:
    """A case of a command: of `twin` the second medium is lost or missing, and the media of a merge differ."""
    case = room.case(command).lay({"short": "short", "empty": "empty", "differing": "filled"}.get(start, "whole"))
    if start == "lost":
        case.path(1).write_bytes(b"")
    if start == "missing":
        case.path(command.written[-1]).unlink()
    if start == "differing":
        case.path(0).write_bytes(case.media.data("whole", 0))
    return case


def stopped_rows(room: Room) -> None:
    """A harm to each medium, once each sync of each command has been made: the next look at that medium ends the run,
    and nothing is written from then on."""
    if why := why_no_trace():
        room.table.leave_out("media that are replaced once a sync was made", why)
        return
    harms = itertools.cycle(HARMS)
    for command in COMMANDS:
        for start in STARTS.get(command.name, ("whole",)) if command.written else ():
            case = laid(room, command, start)
            good = case.traced(case.script("whole"), room.log)
            whole = good.end()
            room.table.same(f"the end of {command.title}, {start}, traced", (whole[0], whole[2]), (0, b""))
            syncs = syncs_of(case, good.told())
            for at in range(len(syncs)):
                for index in syncs[at].opened:
                    if index in command.written or at == len(syncs) - 1:
                        stopped_row(room, laid(room, command, start), start, syncs, at, index, next(harms), whole[1])


def stopped_row(
    room: Room, case: Case, start: str, syncs: list[Sync], at: int, index: int, harm: Harm, whole: bytes
) -> None:
    """A harm to a medium behind this sync. The run ends at the next sync of that medium, or well where none comes."""
    table, sync = room.table, syncs[at]
    run = case.traced(case.script("whole"), room.log, f"{sync.call}:signal=SIGSTOP:when={sync.number}")
    name = f"{case.command.place(index)}, {start}, {title_of(harm)} after sync {at + 1} of {len(syncs)}"
    table.same(f"that a run stops for {name}", run.wait(), True)
    files = Files(case)
    later = next((one for one in syncs[at:] if one.medium == index), None)
    harm(case.path(index), files.data(index))
    before = files.others()
    wanted: tuple[Ending, bytes] = (fault_at(index), later.output) if later else (OK, whole)
    table.judge(name, run.end(), said(*wanted))
    if later:
        table.same(f"all other files after {name}", files.others(), before)
        log = run.told()
        last = max(number for number, line in enumerate(log) if "sync(" in line)
        table.same(f"that nothing is written behind {name}", [line for line in log[last:] if "pwrite" in line], [])
    files.close()
