"""Runs of each command on media that lie in folders of their own, for the rows on what is done to such a file."""

import contextlib
import hashlib
import json
import os
import shutil
import signal
import stat
import subprocess
import tempfile
import time
from collections.abc import Callable, Iterator, Sequence
from pathlib import Path
from typing import Any, NamedTuple, Protocol

import check_sample
import part_media
import version_rows

Ending = tuple[int, str]
Found = tuple[int | str, bytes, bytes]

OK = (0, "")
DISK_FAULT = (5, "disk fault")
NO_STORE = (9, "no store")
EXISTS = (12, "store exists")
CONTENTS = ("empty", "short", "whole", "filled")
NO_STORES = "empty", "short"
LONGEST = 20  # seconds, after which a run counts as one that waits
SCRIPTED = "session", "twin", "part"  # the commands whose script the runs give
FURTHER = "merge", "migrate", "part"  # the commands that look at a further medium only where the first is a store
DICE = "6"

medium_of: Callable[[dict[str, Any], Sequence[str]], bytes] = part_media.medium_of
least: Callable[[int, int], int] = part_media.least
text: Callable[..., bytes] = version_rows.text
tally: Callable[[dict[str, Any], Sequence[str]], list[str]] = version_rows.tally
sample: Callable[[str, int, Sequence[str]], list[str]] = check_sample.sample


class Table(Protocol):
    """What `check_program` counts its rows in."""

    room: Path

    def judge(self, name: str, found: object, want: object) -> None:
        """Compares status, output and error of a run."""

    def same(self, name: str, found: object, want: object) -> None:
        """Compares what stands somewhere."""

    def leave_out(self, name: str, why: str) -> None:
        """Counts rows that this machine cannot run."""


class Command(NamedTuple):
    """A command, with how many media, and which of them it writes."""

    name: str
    media: int = 1
    written: tuple[int, ...] = (0,)
    options: tuple[str, ...] = ()

    @property
    def title(self) -> str:
        """Its name, and of `part` how many parts."""
        return f"{self.name} of {self.media}" if self.name == "part" else self.name

    @property
    def version(self) -> int:
        """The version of its election."""
        return 2 if self.name == "migrate" else 1

    def place(self, index: int) -> str:
        """What one of its media is called in the names of rows."""
        return f"medium {index} of {self.title}" if self.media > 1 else f"the medium of {self.title}"


COMMANDS = (
    Command("init"),
    Command("session"),
    Command("audit", written=()),
    Command("sample", written=(), options=(DICE, "2")),
    Command("compare", written=(), options=(DICE, "2")),
    Command("large", options=("--seed", "1", "--count", "2", "--tabs", "1")),
    Command("merge", media=3),
    Command("migrate", media=2, written=(1,)),
    Command("twin", media=2, written=(0, 1)),
    Command("part", media=2, written=(0, 1)),
    Command("part", media=4, written=(0, 1, 2, 3)),
)


def places() -> Iterator[tuple[Command, int]]:
    """Each place in a command where a medium stands."""
    for command in COMMANDS:
        for index in range(command.media):
            yield command, index


def fault_at(index: int) -> Ending:
    """How a run ends whose disk failed in this place."""
    return (17, f"disk fault at medium {index}") if index else DISK_FAULT


def refusal(command: Command, index: int, content: str) -> Ending:
    """How a run ends whose disk fails in this place at its first call, where the other media have this content."""
    if index and content in NO_STORES and command.name in FURTHER:
        return NO_STORE
    return fault_at(index)


class Media:
    """The ballots and the bytes of the media of one command under the example election."""

    def __init__(self, command: Command, parts: dict[str, Any]):
        self.command = command
        self.parts = {**parts, "version": command.version}
        self.old_parts = {**parts, "version": 1}

    def lines(self, content: str, index: int) -> list[str]:
        """The record lines of a medium of this content in this place."""
        first = least(self.command.media, index) + 4 if self.command.name == "part" else 5
        count = {"whole": 3, "filled": self.parts["limit"]}.get(content, 0)
        return [f"{first + 3 * k} 1 {1 + k % 4}/{k % 3 or '-'}" for k in range(count)]

    def data(self, content: str, index: int) -> bytes:
        """The bytes of a medium of this content in this place."""
        parts = self.old_parts if self.command.name == "migrate" and index == 0 else self.parts
        whole = medium_of(parts, self.lines(content, index))
        return {"empty": b"", "short": whole[:-1]}.get(content, whole)

    def all_data(self, content: str) -> list[bytes]:
        """The bytes of all media; the target of `migrate` is empty."""
        return [
            self.data("empty" if self.command.name == "migrate" and index else content, index)
            for index in range(self.command.media)
        ]

    def exchanged(self, content: str) -> tuple[str, str]:
        """The line of the first medium's first ballot, and that of another which is cast in its place."""
        gone = self.lines(content, 0)[0]
        return gone, f"{int(gone.split(' ')[0]) + 1} 1 4/2"

    def held(self, content: str) -> list[str]:
        """The record lines that all media hold together."""
        several = range(self.command.media if self.command.name == "part" else 1)
        return [line for index in several for line in self.lines(content, index)]

    def script(self, content: str) -> tuple[list[str], list[str]]:
        """A session of two phases and a checkpoint that exchanges a ballot, and its replies."""
        if not self.held(content):
            return ["checkpoint"], []
        (gone, new), count = self.exchanged(content), len(self.held(content))
        lines = [
            "open withdraw 1",
            f"withdraw 1 {gone.split(' ')[0]}",
            "close",
            "open cast 1",
            f"cast 1 {new}",
            "close",
            "checkpoint",
        ]
        return lines, [
            "withdrawing 1",
            "1 1 withdrawn",
            f"closed {count - 1}",
            "casting 1",
            "1 1 accepted",
            f"closed {count}",
            f"checkpoint {count}",
        ]

    def after(self, content: str, index: int, withdrawn: bool = False) -> bytes:
        """The bytes of a medium after its session, and, where that is said, once the new ballot is withdrawn again."""
        gone, new = self.exchanged(content)
        lines = [new if line == gone else line for line in self.lines(content, index)]
        return medium_of(self.parts, [line for line in lines if not withdrawn or line != new])

    def large(self, content: str) -> list[str]:
        """The ballots that are held after the command `large`."""
        made = [f"{(1 + i) * 0xD1342543DE82EF95 % 2**64} 1 {1 + (i + 1) % 4}/{1 + (i + 2) % 3}" for i in (1, 2)]
        return [*self.lines(content, 0), *made][: self.parts["limit"]]

    def outcome(self, content: str) -> tuple[Ending, bytes, list[bytes]]:
        """How a run on media of this content ends, what it writes, and what the media are then."""
        name, lines, data = self.command.name, self.held(content), self.all_data(content)
        count = len(lines)
        if name == "init":
            return (EXISTS, b"", data) if count else (OK, b"ready\n", [medium_of(self.parts, [])])
        if not count:
            return NO_STORE, b"", data
        if name == "large":
            held = self.large(content)
            told = text(*[f"closed {len(held)}"] * 2, f"checkpoint {len(held)}", *tally(self.parts, held))
            return OK, told, [medium_of(self.parts, held)]
        if name == "migrate":
            return OK, b"migrated %d\n" % count, [data[0], medium_of(self.parts, lines)]
        if name in ("session", "twin", "part"):
            told = text(*["media equal"] * (name == "twin"), *self.script(content)[1])
            return OK, told, [self.after(content, index) for index in range(self.command.media)]
        told = {
            "audit": text(f"canonical {count}"),
            "sample": text(*sample(DICE, 2, lines)),
            "compare": text("missing 2"),
            "merge": text(f"merged {count}"),
        }[name]
        return OK, told, data


class Room:
    """The table of rows, the program and the example election, in a folder that all users may enter."""

    def __init__(self, table: Table, program: Path, examples: Path, folder: str):
        self.table, self.folder, self.log = table, Path(folder), Path(folder) / "log"
        self.folder.chmod(0o755)
        self.program = self.folder / "ballot_store"
        shutil.copyfile(program, self.program)
        self.program.chmod(0o755)
        self.parts: dict[str, Any] = json.loads((examples / "election.json").read_text())

    def case(self, command: Command) -> "Case":
        """A new case of a command, in the place of the one before."""
        return Case(self.folder / "case", self.program, command, self.parts)

    def spared(self, name: str, case: "Case", content: str, ending: Ending, election: str = "election.json") -> None:
        """A run that ends so, tells nothing, and touches nothing."""
        before = snapshot(case.folder)
        self.table.judge(name, case.run(content, election), said(ending))
        self.table.same(f"all files after {name}", snapshot(case.folder), before)


@contextlib.contextmanager
def in_room(table: Table, program: Path, examples: Path) -> Iterator[Room]:
    """A room in memory, where a folder there can be written."""
    shared = "/dev/shm" if os.access("/dev/shm", os.W_OK) else None
    with tempfile.TemporaryDirectory(dir=shared) as folder:
        yield Room(table, program, examples, folder)


class Case:
    """A folder with an election and the media of a command, each in a folder of its own with a file beside it."""

    def __init__(self, folder: Path, program: Path, command: Command, parts: dict[str, Any]):
        self.folder, self.program, self.command = folder, program, command
        self.media = Media(command, parts)
        shutil.rmtree(folder, ignore_errors=True)
        folder.mkdir(mode=0o755)
        self.election = folder / "election.json"
        self.election.write_text(json.dumps(self.media.parts))
        self.words = [f"{index}/medium" for index in range(command.media)]
        for index in range(command.media):
            self.path(index).parent.mkdir()
            (self.path(index).parent / "beside").write_bytes(b"a file beside")

    def path(self, index: int) -> Path:
        """Where the medium of this place lies."""
        return self.folder / str(index) / "medium"

    def lay(self, content: str, but: int = -1) -> "Case":
        """Lays media of this content, except in one place."""
        for index, data in enumerate(self.media.all_data(content)):
            if index != but:
                self.path(index).write_bytes(data)
        return self

    def found(self) -> list[bytes]:
        """The bytes of all media."""
        return [self.path(index).read_bytes() for index in range(self.command.media)]

    def script(self, content: str) -> bytes:
        """The session for this content, where the command reads one."""
        return text(*self.media.script(content)[0]) if self.command.name in SCRIPTED else b""

    def line(self, election: str = "election.json") -> list[str]:
        """The words of the command."""
        first, *more = self.words
        return [first, election, self.command.name, *self.command.options, *more]

    def run(self, content: str, election: str = "election.json", **how: Any) -> Found:
        """Runs the command on the session for this content."""
        return run([str(self.program), *self.line(election)], self.script(content), self.folder, **how)

    def traced(self, script: bytes, log: Path, stop: str = "") -> "Traced":
        """Runs the command under strace."""
        return Traced([str(self.program), *self.line()], script, self.folder, log, stop)


def run(words: Sequence[str], script: bytes, folder: Path, **how: Any) -> Found:
    """How a run ended, and what it wrote."""
    try:
        done = subprocess.run(words, input=script, capture_output=True, cwd=folder, timeout=LONGEST, **how)
    except subprocess.TimeoutExpired:
        return "it waits", b"", b""
    return done.returncode, done.stdout, done.stderr


def said(ending: Ending, output: bytes = b"") -> Found:
    """What a run that ends so writes."""
    status, why = ending
    return status, output, f"ballot_store: {why}\n".encode() if why else b""


def snapshot(folder: Path) -> dict[str, object]:
    """Each file below a folder: its kind and mode, a digest of its bytes and when it was changed, or where it leads."""
    found: dict[str, object] = {}
    for path in sorted(folder.rglob("*")):
        seen = path.lstat()
        data: object = None
        if stat.S_ISREG(seen.st_mode):
            data = hashlib.sha256(path.read_bytes()).hexdigest()[:16], seen.st_mtime_ns
        elif stat.S_ISLNK(seen.st_mode):
            data = os.readlink(path)
        found[str(path.relative_to(folder))] = seen.st_mode, data
    return found


def why_no_trace() -> str:
    """Why runs cannot be traced here, or nothing."""
    if not shutil.which("strace"):
        return "strace is not installed"
    done = subprocess.run(["strace", "-o", os.devnull, "true"], capture_output=True, text=True)
    return f"strace may not trace here: {done.stderr.strip()}" if done.returncode else ""


class Traced:
    """A run under strace, with its log; it may be stopped once a sync has been made."""

    def __init__(self, words: Sequence[str], script: bytes, folder: Path, log: Path, stop: str = ""):
        calls = "fsync,fdatasync,write,pwrite64,pwritev,openat,statx,flock,pread64,read,fstat,newfstatat,ftruncate"
        strace = ["strace", "-f", "-y", "-s", "100000", "-o", str(log), "-e", f"trace={calls}"]
        self.log = log
        log.unlink(missing_ok=True)
        inject = ["-e", f"inject={stop}"] if stop else []
        pipe = subprocess.PIPE
        self.process = subprocess.Popen([*strace, *inject, *words], stdin=pipe, stdout=pipe, stderr=pipe, cwd=folder)
        assert self.process.stdin
        with contextlib.suppress(BrokenPipeError):  # (a script is less than a pipe holds, and may not be read)
            self.process.stdin.write(script)
        with contextlib.suppress(BrokenPipeError):
            self.process.stdin.close()
        self.process.stdin = None

    def told(self) -> list[str]:
        """The lines of the log so far."""
        return self.log.read_text().splitlines() if self.log.exists() else []

    def wait(self) -> bool:
        """Waits until the run has stopped, or ended: whether it has stopped."""
        end = time.monotonic() + LONGEST
        while time.monotonic() < end and self.process.poll() is None:
            if any(line.endswith("--- stopped by SIGSTOP ---") for line in self.told()):
                return True
            time.sleep(0.001)
        return False

    def end(self) -> Found:
        """Lets the run go on, and answers how it ended."""
        told = self.told()
        if self.process.poll() is None and told:
            with contextlib.suppress(ProcessLookupError):  # where it has ended, and strace not yet
                os.kill(int(told[-1].split()[0]), signal.SIGCONT)
        try:
            output, error = self.process.communicate(timeout=LONGEST)
        except subprocess.TimeoutExpired:
            self.process.kill()
            self.process.communicate()
            return "it waits", b"", b""
        return self.process.returncode, output, error
