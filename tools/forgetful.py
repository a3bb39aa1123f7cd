"""A device that forgets, under the files of the media: for `fail_syncs`.

A file has what a read gives (the system's pages), what the device has, and the writes that wait to come there. When a
sync fails, of these writes some pieces have reached the device, some wait still, and the others are *forgotten*: reads
go on showing them, and no later sync brings them. Only what is written again, also with the same bytes, waits again. A
sync that succeeds brings what waits, and nothing else. A loss of power leaves what docs/DISK.md says of the writes that
wait; but one of the bytes which reads showed already leaves each of them, or what the device had there.
"""

import random
import struct
from pathlib import Path
from typing import Any, NamedTuple

from traced_media import Disk, torn

Event = tuple[Any, ...]  # ("written", name, place, bytes), ("synced" or "failed", name or "folder"), ("replied", count)
Span = tuple[int, int]  # where it begins, and where it ends
RECORD = struct.Struct("<c15sQQ")
NAMES = {b"w": "written", b"s": "synced", b"f": "failed", b"r": "replied"}
UNITS = [1, 1, 512, 4096]  # what a write of one byte makes wait with it; 1 is the device that does the least
PIECES = [10**9, 4096, 4096, 512]  # what the device takes or forgets as a whole, where it is no random number


class Write(NamedTuple):
    """A write that waits."""

    place: int
    data: bytes
    same: bool  # reads showed these bytes before it

    @property
    def end(self) -> int:
        """Where it ends."""
        return self.place + len(self.data)


def events_of(log: Path) -> list[Event]:
    """The events of a run, from the log of fail_syncs.c."""
    data, at, events = log.read_bytes() if log.exists() else b"", 0, list[Event]()
    while at < len(data):
        letter, name, place, length = RECORD.unpack_from(data, at)
        what, which, at = NAMES[letter], name.rstrip(b"\0").decode(), at + RECORD.size
        if what == "written":
            events.append((what, which, place, data[slice(at, at + length)]))
            at += length
        else:
            events.append((what, length) if what == "replied" else (what, "folder" if which == "." else which))
    return events


def put(data: bytearray, place: int, written: bytes) -> None:
    """Writes to bytes that may grow by it."""
    data.extend(bytes(max(0, place - len(data))))
    data[slice(place, place + len(written))] = written


class ForgetfulDisk:
    """The file of a medium on such a device."""

    def __init__(self, name: str, data: bytes | None, rng: random.Random, unit: int) -> None:
        self.name, self.rng, self.unit = name, rng, unit
        self.hold(data)

    def hold(self, data: bytes | None) -> None:
        """The device has these bytes, and reads give them: after a loss of power, or once the file system was mounted
        again. None is for a missing file."""
        self.safe: bytes | None = data  # on the device
        self.seen: bytes | None = data  # by reads
        self.named = True  # the name of the file is safe, or that there is none
        self.pending = list[Write]()
        self.forgets = False  # something was forgotten since

    def copy(self) -> "ForgetfulDisk":
        """The same as it is now."""
        disk = ForgetfulDisk(self.name, self.seen, self.rng, self.unit)
        disk.safe, disk.named, disk.pending, disk.forgets = self.safe, self.named, list(self.pending), self.forgets
        return disk

    def handle(self, event: Event) -> None:
        """What an event does to it."""
        if event == ("synced", self.name):
            self.safe, self.pending = self.settled(), []
        elif event == ("failed", self.name):
            self.forget()
        elif event == ("synced", "folder"):
            self.named = True
        elif event[:2] == ("written", self.name):
            self.write(event[2], event[3])

    def write(self, place: int, data: bytes) -> None:
        """A write of these bytes."""
        if self.seen is None:
            self.safe = self.seen = b""
            self.named = False
        span, seen = slice(place, place + len(data)), bytearray(self.seen)
        same = seen[span] == data
        put(seen, place, data)
        self.seen = bytes(seen)
        self.pending.append(Write(place, data, same))
        if self.forgets and self.unit > 1:
            self.wait_beside(place, len(data))

    def wait_beside(self, place: int, length: int) -> None:
        """A unit in which something is written waits as a whole: so does what was forgotten in it."""
        low, high = place - place % self.unit, place + length + -(place + length) % self.unit
        known, seen = self.settled() or b"", self.seen or b""
        if known[slice(low, high)] == seen[slice(low, high)]:
            return
        differ = [at for at in range(low, min(high, len(seen))) if at >= len(known) or known[at] != seen[at]]
        self.pending.append(Write(differ[0], seen[slice(differ[0], differ[-1] + 1)], True))

    def settled(self) -> bytes | None:
        """What the device has after a sync that succeeds."""
        if self.safe is None:
            return None
        data = bytearray(self.safe)
        for write in self.pending:
            put(data, write.place, write.data)
        return bytes(data)

    def state(self, rng: random.Random) -> bytes | None:
        """What the device may have after a loss of power now."""
        disk = Disk(self.name, self.safe)
        disk.named, disk.pending = self.named, [write[:2] for write in self.pending if not write.same]
        state = disk.state(rng)
        if state is None:
            return None
        data = bytearray(state)
        for write in rng.sample(self.pending, len(self.pending)):
            if write.same:
                size = max(len(data), rng.choice([write.place, write.end, rng.randint(write.place, write.end)]))
                span = slice(write.place, write.end)
                old = bytes(data[span]).ljust(len(write.data), b"\0")
                part = rng.choice(["lost", "whole", "begin", "end", "sectors", "bytes"])
                put(data, write.place, torn(rng, old, write.data, part))
                del data[size:]
        return bytes(data)

    def waiting(self) -> list[Span]:
        """The spans in which something waits, in order."""
        spans = list[Span]()
        for low, high in sorted((write.place, write.end) for write in self.pending):
            if spans and low <= spans[-1][1]:
                spans[-1] = (spans[-1][0], max(high, spans[-1][1]))
            else:
                spans.append((low, high))
        return spans

    def pieces(self) -> list[Span]:
        """The same in pieces that the device takes or forgets by themselves."""
        size = self.rng.choice([*PIECES, self.rng.randint(1, 9000)])
        cuts = list[Span]()
        for low, high in self.waiting():
            while low < high:
                end = min(high, low - low % size + size)
                cuts.append((low, end))
                low = end
        return cuts

    def forget(self) -> None:
        """A sync of the file failed."""
        rng, seen, device = self.rng, self.seen or b"", bytearray(self.safe or b"")
        odds = rng.choice([(1, 0, 0), (1, 0, 0), (1, 1, 0), (1, 4, 0), (4, 1, 0), (1, 1, 1), (1, 0, 1)])
        left = list[Span]()
        for low, high in self.pieces():
            [fate] = rng.choices(["forgotten", "reached", "waits"], odds)
            span = slice(low, high)
            if fate == "waits":
                left.append((low, high))
            elif fate == "reached":
                put(device, low, seen[span])
            elif rng.random() < 0.1:  # the device has some of what was forgotten
                old = bytes(device[span]).ljust(high - low, b"\0")
                put(device, low, torn(rng, old, seen[span], rng.choice(["begin", "end", "sectors", "bytes"])))
        if rng.random() < 0.2:  # that the file grew is not forgotten
            device.extend(bytes(max(0, len(seen) - len(device))))
        if self.safe is not None:
            self.safe, self.pending, self.forgets = bytes(device), kept(self.pending, left), True

    def chosen(self) -> tuple[list[Span], list[Span]]:
        """Some pieces in which something waits, and the others."""
        taken, left = list[Span](), list[Span]()
        for piece in self.pieces():
            (taken if self.rng.random() < 0.5 else left).append(piece)
        return taken, left

    def write_back(self) -> None:
        """The system brings some of what waits to the device, with no call of a program."""
        taken, left = self.chosen()
        if self.safe is not None and self.seen is not None and taken:
            device = bytearray(self.safe)
            for low, high in taken:
                put(device, low, self.seen[slice(low, high)])
            self.safe, self.pending = bytes(device), kept(self.pending, left)

    def give_up(self) -> None:
        """The system failed to bring some of what waits, and gave up its pages: reads give what the device has. The
        next sync has to tell of it."""
        taken, left = self.chosen()
        if self.safe is not None and self.seen is not None and taken:
            seen = bytearray(self.seen)
            for low, high in taken:
                seen[slice(low, high)] = self.safe[slice(low, high)].ljust(high - low, b"\0")
            self.seen, self.pending, self.forgets = bytes(seen), kept(self.pending, left), True


def kept(pending: list[Write], spans: list[Span]) -> list[Write]:
    """What of these writes lies in these spans."""
    left = list[Write]()
    for write in pending:
        for low, high in spans:
            begin, end = max(low, write.place), min(high, write.end)
            if begin < end:
                left.append(Write(begin, write.data[slice(begin - write.place, end - write.place)], write.same))
    return left
