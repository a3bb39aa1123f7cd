#!/usr/bin/python3
"""Writes that a device really refuses, in the middle of a session, and the same lines again: for `lose_mounted`.

The device is a thin file on a tmpfs, out of which the blocks that a checkpoint writes were punched, and which is full:
so what the system writes back to these blocks fails, as on a device with bad sectors. Then there is room again.
"""
import contextlib
import json
import mmap
import os
import random
import re
import time
from collections import Counter
from pathlib import Path
from typing import Any, NamedTuple

from mounted_devices import MIB, Device, Failure, Kind, Room, done, extents, formatted, must, sync
from mounted_moments import CASES, MODEL, NAMES, Program, holding, read, short

BLOCK = 4096
LOCKED = 0x2000  # MAP_LOCKED


class Trial(NamedTuple):
    """What is tried: a command, which blocks cannot be written, and how the media begin."""

    command: str
    blocks: str  # those of a bank or of what Attempt.changed has, of the journal, or such that are not used
    dirty: bool = False  # a run that was killed left the first bank as written and not synced
    options: str = ""

    def __str__(self) -> str:
        begin = ", behind a killed run" if self.dirty else ""
        return f"{self.command}, no room for the {self.blocks}{begin}" + (f", {self.options}" if self.options else "")


def trials(kind: Kind) -> list[Trial]:
    """What is tried on a file system."""
    if kind.type == "btrfs":
        # in place, and as it does by itself: each block that is written is a new one
        in_place = [trial._replace(options="nodatacow") for trial in on_blocks()]
        new = [Trial(command, "new blocks for data") for command in ("session", "session", "twin", "part")]
        return [*in_place, *new, Trial("session", "new blocks")]
    return on_blocks() + ([Trial("session", "journal")] if kind.name in ("ext4", "ext4-data-journal") else [])


def on_blocks() -> list[Trial]:
    """What is tried where blocks are written in place."""
    alone = [Trial("session", blocks) for blocks in ("first bank", "second bank", "banks", "gates", "all")]
    beside = [Trial(command, blocks) for command in ("twin", "part") for blocks in ("first bank", "all")]
    return alone + beside + [Trial(command, "first bank", True) for command in ("session", "twin", "part")]


class Sets:
    """The media of a store before a session and after it, and the session's lines."""

    def __init__(self, rng: random.Random, command: str) -> None:
        versions = (1, 2)
        election = CASES.election(rng, small=True, versions=versions)
        election |= {"limit": rng.randint(150, 500), "bits": rng.randint(7, 9)}
        maker = CASES.Maker(rng, election, crowded=True)
        self.text = json.dumps(election).encode()
        self.rules = MODEL.Rules(self.text)
        numbers = rng.sample(sorted(set(maker.numbers)), 120)
        ballots = {number: self.rules.ballot(maker.record(number, valid=True).encode()) for number in numbers}
        old, kept, new = numbers[:80], numbers[40:80], numbers[40:]
        lines = ["open withdraw 1", *(f"withdraw 1 {number}" for number in old if number not in kept), "close"]
        casts = (self.rules.line(ballots[number]).decode() for number in new if number not in kept)
        lines += ["open cast 1", *(f"cast 1 {line}" for line in casts), "close", "checkpoint"]
        self.script = "".join(line + "\n" for line in lines).encode()
        self.before, self.after = ({number: ballots[number] for number in chosen} for chosen in (old, new))
        self.reply = b"checkpoint %d\n" % len(new)
        self.names = NAMES[:1] if command == "session" else NAMES
        share = MODEL.shares if command == "part" else lambda count, held: [held] * count
        self.old, self.new = (dict(zip(self.names, share(len(self.names), held))) for held in (self.before, self.after))

    def medium(self, held: dict[int, Any]) -> bytes:
        """The medium of a set."""
        return bytes(self.rules.medium(held))

    def changed(self, name: str) -> dict[str, list[int]]:
        """The blocks of a medium that the session changes, of either bank alone, and of the gates."""
        old, new = self.medium(self.old[name]), self.medium(self.new[name])
        bank, count = len(old) // 2 - 1, (len(old) + BLOCK - 1) // BLOCK
        changed = [i for i in range(count) if block(old, i) != block(new, i)]
        first = [i for i in changed if (i + 1) * BLOCK <= bank]
        second = [i for i in changed if i * BLOCK >= bank and i < count - 1]
        return {"first bank": first, "second bank": second, "banks": first + second, "gates": [count - 1],
                "all": sorted({*changed, count - 1})}  # fmt: skip


class Thin:
    """A device that has no room for some blocks, until there is room."""

    def __init__(self, room: Room, kind: Kind, number: int, options: str) -> None:
        self.kind, self.path = kind, room.folder(f"thin{number}")
        # A block of metadata has room, also one that was never written. (xfs writes no such block in these trials.)
        size = 96 * MIB if kind.type == "xfs" else kind.size + 8 * MIB
        must("mount", "-t", "tmpfs", "-o", f"size={size}", "tmpfs", self.path)
        backing = formatted(kind, self.path / "device")
        if kind.type != "xfs":
            with open(backing, "r+b") as file:
                os.posix_fallocate(file.fileno(), 0, kind.size)
        options = ",".join(filter(None, [options, "nodiscard" if kind.type == "btrfs" else ""]))
        self.device = Device(kind, backing, room.folder(f"thin{number}_mounted"), options)
        # One request, one block: Linux 6.18 takes a request as done of which only the first blocks had room.
        Path("/sys/block", Path(self.device.loop).name, "queue/max_sectors_kb").write_text(str(BLOCK // 1024))
        self.device.mount()
        self.folder = self.device.folder
        self.held = list[mmap.mmap]()

    def hold(self, path: Path) -> None:
        """Holds a file in memory, so that what is taken away of the device below it is not read from there."""
        with open(path, "rb") as file:
            flags = mmap.MAP_SHARED | mmap.MAP_POPULATE | LOCKED
            self.held.append(mmap.mmap(file.fileno(), 0, flags=flags, prot=mmap.PROT_READ))

    def unmount(self) -> None:
        """Lets go what was held, and unmounts the device."""
        while self.held:
            self.held.pop().close()
        self.device.unmount()

    def punch(self, places: list[tuple[int, int]]) -> None:
        """Takes these bytes of the device away: from where, and how many."""
        for place, count in places:
            must("fallocate", "--punch-hole", "--offset", place, "--length", count, self.device.backing)

    def fill(self, left: int) -> None:
        """Takes all room, but for so many blocks."""
        with open(self.path / "ballast", "wb") as ballast:
            while (blocks := os.statvfs(self.path).f_bavail - left) > 0:
                with contextlib.suppress(OSError):  # the system has just written back something
                    os.posix_fallocate(ballast.fileno(), os.fstat(ballast.fileno()).st_size, blocks * BLOCK)

    def make_room(self) -> None:
        """There is room again."""
        (self.path / "ballast").unlink()

    def close(self) -> None:
        """Takes all of it away."""
        while self.held:
            self.held.pop().close()
        with contextlib.suppress(Failure):
            self.device.close()
        done("umount", self.path)

    def condition(self) -> str:
        """What the file system made of the errors, in words."""
        mounted = [line.split() for line in Path("/proc/self/mounts").read_text().splitlines()]
        [options] = [words[3].split(",") for words in mounted if words[1] == str(self.folder)]
        try:
            os.listdir(self.folder)
        except OSError:
            return " (it shut itself down)"
        return " (it became read-only)" if {"ro", "emergency_ro", "shutdown"} & {*options} else ""

    def places(self, path: Path, blocks: list[int]) -> list[tuple[int, int]]:
        """Where the device has these blocks of a file."""
        found = []
        for start, place, count in extents(path):
            chunk, offset = self.chunk(place) if self.kind.type == "btrfs" else (0, 0)
            for block in blocks:
                if start <= block * BLOCK < start + count:
                    found.append((place + block * BLOCK - start - chunk + offset, BLOCK))
        if len(found) != len(blocks):
            raise Failure(f"{path.name}: {len(found)} of {len(blocks)} blocks have a place on the device")
        return found

    def chunks(self) -> list[tuple[int, int, int, str]]:
        """The chunks of a btrfs: where each begins in its own count, its bytes, where on the device, and its type."""
        told = must("btrfs", "inspect-internal", "dump-tree", "-t", "chunk", self.device.loop)
        parts = r"CHUNK_ITEM (\d+)\).*?length (\d+) .*?type (\S+).*?stripe 0 devid 1 offset (\d+)"
        return [(int(m[1]), int(m[2]), int(m[4]), m[3]) for m in re.finditer(parts, told, re.DOTALL)]

    def chunk(self, place: int) -> tuple[int, int]:
        """Where the chunk with this place begins, and where on the device."""
        return next((start, at) for start, count, at, _ in self.chunks() if start <= place < start + count)

    def new_blocks(self, paths: list[Path], types: tuple[str, ...]) -> list[tuple[int, int]]:
        """All blocks of btrfs in chunks of these types, but for those which these files have."""
        held = {place for path in paths for place, _ in self.places(path, list(range(blocks_of(path))))}
        chunks = [(at, count) for _, count, at, kind in self.chunks() if kind.split("|")[0] in types]
        return runs([at + i for at, count in chunks for i in range(0, count, BLOCK) if at + i not in held])

    def journal(self) -> list[tuple[int, int]]:
        """The blocks of the journal of ext4, but for the first one."""
        numbers = must("debugfs", "-R", "blocks <8>", self.device.loop).split()
        return runs([int(number) * BLOCK for number in numbers[1:]])


def runs(places: list[int]) -> list[tuple[int, int]]:
    """Places of blocks as ranges."""
    found: list[tuple[int, int]] = []
    for place in sorted(places):
        if found and sum(found[-1]) == place:
            found[-1] = found[-1][0], found[-1][1] + BLOCK
        else:
            found.append((place, BLOCK))
    return found


def block(data: bytes, number: int) -> bytes:
    """A block of these bytes."""
    first, end = number * BLOCK, (number + 1) * BLOCK
    return data[first:end]


def blocks_of(path: Path) -> int:
    """How many blocks a file has."""
    return (path.stat().st_size + BLOCK - 1) // BLOCK


class Attempt:
    """One trial: a session whose sync fails, and the same lines again."""

    def __init__(self, program: Program, room: Room, kind: Kind, trial: Trial, number: int, seed: int) -> None:
        self.program, self.kind, self.trial = program, kind, trial
        self.rng = random.Random(f"{seed} {kind.name} {trial} {number}")
        self.sets = Sets(self.rng, trial.command)
        while not all(all(self.sets.changed(name).values()) for name in self.sets.names):
            self.sets = Sets(self.rng, trial.command)
        self.election = self.sets.text
        more = () if trial.command == "session" else NAMES[1:]
        self.words = program.words(trial.command, *more)
        self.thin = Thin(room, kind, number, trial.options)
        self.told = ""
        self.acknowledged = self.is_wrong = False
        # whether the device keeps the old set until the lines are acknowledged, as far as the trial is concerned
        self.keeps_old = trial.blocks not in ("gates", "all")

    def run(self) -> str:
        """A run on the media, and how it ended in words."""
        self.program.election.write_bytes(self.election)
        status, error, output = self.program.run(self.words, self.sets.script, self.thin.folder)
        done_all = status == 0 and output.endswith(self.sets.reply)
        self.acknowledged |= done_all
        return "acknowledged" if done_all else error.strip().removeprefix("ballot_store: ") or f"status {status}"

    def fail(self) -> None:
        """Lays the media, takes the room away, runs the session, and gives the room back."""
        for name, held in self.sets.old.items():
            with open(self.thin.folder / name, "wb") as file:
                file.write(self.start(name, held))
        sync(self.thin.folder)
        self.thin.device.unmount()  # so that the journal has nothing of it
        self.thin.device.mount()
        for name in self.sets.names:
            self.thin.hold(self.thin.folder / name)
        self.thin.punch(self.places())
        self.thin.fill(self.room_left())
        for name in self.sets.names if self.trial.dirty else ():
            self.dirty(name)
        self.told = "first " + self.run()
        self.thin.make_room()

    def room_left(self) -> int:
        """How many blocks can be written still: some of those that the session writes anew."""
        if self.trial.blocks != "new blocks for data":
            return 0
        return self.rng.randint(0, sum(4 + len(self.sets.changed(name)["all"]) for name in self.sets.names))

    def start(self, name: str, held: dict[int, Any]) -> bytes:
        """The medium at the start: where it is behind a killed run, in the middle of the renewing of bank A."""
        old, new = self.sets.medium(held), self.sets.medium(self.sets.new[name])
        bank = len(old) // 2 - 1
        return old[:bank] + new[bank:-2] + b"\0\xa7" if self.trial.dirty else old

    def dirty(self, name: str) -> None:
        """Writes the new set's bank A over the old one and does not sync it, as a run does that is killed then."""
        new = self.sets.medium(self.sets.new[name])
        with open(self.thin.folder / name, "r+b") as file:
            file.write(new[: len(new) // 2 - 1])

    def places(self) -> list[tuple[int, int]]:
        """What is taken away of the device."""
        if self.trial.blocks == "journal":
            return self.thin.journal()
        paths = [self.thin.folder / name for name in self.sets.names]
        if self.trial.blocks.startswith("new blocks"):
            types = ("DATA",) if self.trial.blocks == "new blocks for data" else ("DATA", "METADATA", "SYSTEM")
            return self.thin.new_blocks(paths, types)
        chosen = self.rng.choice([paths, paths[:1], paths[-1:]])
        found = []
        for path in chosen:
            blocks = self.sets.changed(path.name)[self.trial.blocks]
            some = self.rng.sample(blocks, self.rng.choice([1, len(blocks), self.rng.randint(1, len(blocks))]))
            found += self.thin.places(path, sorted(some))
        return found

    def again(self) -> None:
        """Runs the same lines again, mounts the device anew, and judges what is on it.

        A write back that came before there was room may fail this run too, and even the next one."""
        for _ in range(3):
            ended, condition = self.run(), self.thin.condition()
            self.told += f", then {ended}{condition}"
            if ended == "acknowledged" or condition:
                break
        try:
            self.thin.unmount()
            self.thin.device.mount()
        except Failure as failure:
            self.is_wrong = self.acknowledged
            self.told += f", and it cannot be mounted: {failure}"
            return
        self.told += ", mounted anew " + self.judged()

    def judged(self) -> str:
        """Whether the media are those that they have to be, in words."""
        self.program.election.write_bytes(self.election)
        if not self.acknowledged and not self.keeps_old:
            return "not judged"
        for name in self.sets.names:
            if self.acknowledged:
                held = self.sets.new[name]
                audit = self.program.run([name, str(self.program.election), "audit"], b"", self.thin.folder)
                is_right = read(self.thin.folder, name) == self.sets.medium(held)
                self.is_wrong |= not is_right or audit != (0, "", b"canonical %d\n" % len(held))
            else:
                allowed = [holding(held[name]) for held in (self.sets.old, self.sets.new)]
                found = self.program.recover(self.sets.rules, self.thin.folder, name)
                self.is_wrong |= found not in allowed
            if self.is_wrong:
                outcome = self.sets.rules.outcome(read(self.thin.folder, name))
                return f"WRONG: {name}: {short(outcome[1] if outcome[0] == 'refused' else 'another medium')}"
        return "right" if self.acknowledged else "one of both sets"


class Faults:
    """The trials, with their counts."""

    def __init__(self, program: Program, room: Room, seed: int) -> None:
        self.program, self.room, self.seed = program, room, seed
        self.count = self.wrong = 0

    def go(self, kind: Kind, chosen: list[Trial], wait: float) -> None:
        """Makes trials on a file system, the same lines coming again after so many seconds; tells what it did."""
        attempts, told = list[Attempt](), Counter[str]()
        try:
            for trial in chosen:
                self.count += 1
                attempts.append(Attempt(self.program, self.room, kind, trial, self.count, self.seed))
                attempts[-1].fail()
                if not wait:
                    self.end(attempts.pop(), told)
            time.sleep(wait)
            while attempts:
                self.end(attempts.pop(), told)
        finally:
            for attempt in attempts:
                attempt.thin.close()
        when = f"again after {wait:g} seconds" if wait else "again at once"
        for text, count in told.most_common():
            print(f"{kind.name}, {when}: {text} ({count} trials)", flush=True)

    def end(self, attempt: Attempt, told: Counter[str]) -> None:
        """The second half of a trial."""
        try:
            attempt.again()
        finally:
            attempt.thin.close()
        told[re.sub(r" at medium \d|: \w+: .*", "", attempt.told)] += 1
        if attempt.is_wrong:
            self.wrong += 1
            print(f"{attempt.kind.name}, {attempt.trial}: {attempt.told}", flush=True)
