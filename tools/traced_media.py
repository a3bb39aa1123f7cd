"""What a run of the program did to its media, from a log of strace; and what a loss of power leaves of it, as
docs/DISK.md has it: for `lose_power`.

Behind a sync that failed, which makes nothing safe, a run writes again what stands there. By the letter of the disk
model such a write is one like any other: a crash may tear it. Where a sync of the run was good before, that is how it
is taken here. It does no harm: the run writes again only what lies between writes of its own since that sync, and no
crash lets that be read. Where none was good it writes the whole file again, and by the letter a crash could leave
anything of that. So there it is a premise that a write of the bytes that a read gives leaves them at a crash. Then it
adds nothing to what a crash may leave: what an earlier write left unsafe may be lost, whole or torn as before, and
elsewhere the device has the same bytes already. Nor does it take anything away: nothing of it is safe until a sync
succeeds. `Disk` passes over it.

The model also lets a read behind a failed sync give anything that a crash could have left. Here the sync is refused
before the system has done anything, so a read gives what was written: for a device that forgets there is `fail_syncs`.
"""
import os
import re

from random_cases import MORE, name_of

CALLS = ("open openat openat2 creat close dup dup2 dup3 fcntl write writev pwrite64 pwritev pwritev2 pread64 preadv "
         "read readv lseek fsync fdatasync sync syncfs sync_file_range msync mmap truncate ftruncate fallocate rename "
         "renameat renameat2 unlink unlinkat link linkat symlink symlinkat sendfile splice copy_file_range "
         "io_uring_setup").split()
SYNCS = ("fsync", "fdatasync")
HARMLESS = ("pread64", "preadv", "read", "readv", "lseek", "fcntl", "mmap")  # on the medium
WHOLE = re.compile(r"(\d+) +(\w+)\((.*)\)\s+= (-?\d+|\?|0x[0-9a-f]+)")
BEGUN = re.compile(r"(\d+) +(\w+\(.*) <unfinished \.\.\.>")
RESUMED = re.compile(r"(\d+) +<\.\.\. \w+ resumed>(.*)")
MEDIA = ["medium", *map(name_of, MORE)]  # the names of their files
TEXT = re.compile(r'"((?:\\x[0-9a-f]{2})*)"(\.\.\.)?')


class Untold(Exception):
    """A system call from which no state can be rebuilt."""


def texts(arguments):
    if any(match[2] for match in TEXT.finditer(arguments)):
        raise Untold("a text that strace cut: " + arguments[:60])
    return [bytes.fromhex(match[1].replace("\\x", "")) for match in TEXT.finditer(arguments)]


class Trace:
    """The events of a run, from its system calls: what it did to the media that it may write, to their folder and to
    the other media, which of its syncs failed, and what it replied."""

    def __init__(self, log, folder, written):
        self.folder, self.written, self.others = folder, written, [name for name in MEDIA if name not in written]
        self.files, self.events = {}, []
        for name, arguments, result in calls(log):
            self.call(name, arguments, result)

    def kind(self, path):
        whole = os.path.normpath(os.path.join(self.folder, os.fsdecode(path)))
        named = {os.path.join(self.folder, name): name for name in MEDIA}
        return (named | {self.folder: "folder"}).get(whole)

    def touched(self, kind, name):
        """Whether a call other than reading is one on another medium. Then it is an event: none may come."""
        if kind in self.others:
            self.events.append(("touched", f"{name} of the medium {kind}"))
        return kind in self.others

    def call(self, name, arguments, result):
        if result.startswith("-") and name in SYNCS:
            return self.synced(name, arguments, "failed")
        if result.startswith("-") or result == "?":
            return  # it did nothing; a write that fails may tear its range, but here only a sync of the medium fails
        if name in ("open", "openat", "creat"):
            self.open(name, arguments, int(result))
        elif name == "close":
            self.files.pop(int(arguments), None)
        elif name in SYNCS:
            self.synced(name, arguments, "synced")
        elif name in ("sync", "syncfs"):
            self.events += [("synced", kind) for kind in (*self.written, "folder")]
        elif name in ("write", "writev", "pwrite64", "pwritev", "pwritev2"):
            self.write(name, arguments, int(result))
        else:
            self.other(name, arguments)

    def synced(self, name, arguments, what):
        kind = self.files.get(int(arguments))
        self.events += [(what, kind)] if kind and not self.touched(kind, name) else []

    def open(self, name, arguments, result):
        kind = self.kind(texts(arguments)[0])
        if kind:
            self.files[result] = kind
        if "O_TRUNC" in arguments or "O_CREAT" in arguments or name == "creat":
            self.touched(kind, name)
        if kind in self.written:
            if "O_TRUNC" in arguments or name == "creat":
                raise Untold("a medium is cut to no bytes")
            if "O_CREAT" in arguments:
                self.events.append(("made", kind))

    def write(self, name, arguments, count):
        number = int(arguments.split(",")[0])
        kind, data = self.files.get(number), b"".join(texts(arguments))[:count]
        if number == 1:
            self.events.append(("replied", data))
        elif self.touched(kind, name):
            return
        elif kind in self.written:
            if name.startswith("p"):
                place = int(re.findall(r", (\d+)", arguments)[-1 if name != "pwritev2" else -2])
            else:
                raise Untold("a write to a medium with no place")
            self.events.append(("written", kind, place, data))

    def other(self, name, arguments):
        first = re.match(r"(\d+)(?:,|$)", arguments)
        number = int(first[1]) if first else None
        on_medium = self.files.get(number) in MEDIA
        copied = (name.startswith("dup") or "F_DUPFD" in arguments) and (on_medium or number == 1)
        named = re.match("rename|link|unlink|symlink|truncate", name)
        by_name = named and any(self.kind(path) in MEDIA for path in texts(arguments))
        shared = name == "mmap" and "MAP_SHARED" in arguments
        mapped = shared and self.files.get(int(arguments.split(", ")[4])) in MEDIA
        if copied or by_name or mapped or name == "io_uring_setup" or on_medium and name not in HARMLESS:
            raise Untold(f"{name}({arguments[:80]})")


def calls(log):
    """Each system call of a log of strace: its name, its arguments and its result. A call of a thread that was
    interrupted by those of another stands where it ended."""
    begun = {}
    for line in log.splitlines():
        resumed, unfinished = RESUMED.match(line), BEGUN.match(line)
        if unfinished:
            begun[unfinished[1]] = unfinished[2]
            continue
        if resumed:
            line = f"{resumed[1]} {begun.pop(resumed[1], '')}{resumed[2]}"
        whole = WHOLE.match(line)
        if whole and whole[2] in CALLS:
            yield whole[2], whole[3], whole[4]


def syncs(log):
    """The syncs of a run, in order, each as the name of its call and its number among those of this name."""
    names = [name for name, _, _ in calls(log) if name in SYNCS]
    return [(name, names[:at + 1].count(name)) for at, name in enumerate(names)]


class Disk:
    """Of the medium of this name: what is safe, what a read gives, the writes between, and how the syncs of this run
    went."""

    def __init__(self, name, data):
        self.name = name
        self.safe = self.seen = data  # None for a missing file
        self.named = True  # the name of the file is safe, or that there is none
        self.pending = []
        self.synced = False  # one was good
        self.again = False  # one failed and none was good: bytes that are there are written again

    def copy(self):
        disk = Disk(self.name, self.seen)
        disk.safe, disk.named, disk.pending = self.safe, self.named, list(self.pending)
        disk.synced, disk.again = self.synced, self.again
        return disk

    def handle(self, event):
        if event == ("begun",):
            self.synced = self.again = False
        elif event == ("made", self.name) and self.seen is None:
            self.safe = self.seen = b""
            self.named = False
        elif event[:2] == ("written", self.name):
            place, data = event[2:]
            if self.again and self.seen[place:place + len(data)] == data:
                return
            self.seen = self.seen[:place].ljust(place, b"\0") + data + self.seen[place + len(data):]
            self.pending.append((place, data))
        elif event == ("synced", self.name):
            self.safe, self.pending, self.synced, self.again = self.seen, [], True, False
        elif event == ("failed", self.name):
            self.again = not self.synced
        elif event == ("synced", "folder"):
            self.named = True

    def state(self, rng):
        """One of the crash images of now, or None for a missing file."""
        if not self.named and rng.random() < 0.3:
            return None
        if self.safe is None:
            return None
        low, high = len(self.safe), max([len(self.safe)] + [place + len(data) for place, data in self.pending])
        filler = rng.choice([b"\0", b"\0", b"\xa7", b"\xff"])
        data = bytearray(self.safe + filler * (high - low))
        way = rng.choice(["lost or whole", "each", "each", "all but one", "one alone"])
        chosen = rng.randrange(len(self.pending)) if self.pending else 0
        for number, (place, written) in enumerate(rng.sample(self.pending, len(self.pending))):
            if way == "lost or whole":
                part = rng.choice(["lost", "whole"])
            elif way == "each":
                part = rng.choice(["lost", "whole", "begin", "end", "sectors", "bytes", "any"])
            else:
                part = "whole" if (number == chosen) == (way == "one alone") else "lost"
                part = rng.choice([part, part, "begin", "any"]) if number == chosen else part
            data[place:place + len(written)] = torn(rng, bytes(data[place:place + len(written)]), written, part)
        size = rng.choice([low, high, high, rng.randint(low, high), rng.randint(low, high)])
        return bytes(data[:size])


def torn(rng, before, after, part):
    """What a write left of its range: some of it, or any bytes."""
    count = len(after)
    cut = rng.randint(0, count)
    if part == "lost":
        return before
    if part == "whole":
        return after
    if part == "begin":
        return after[:cut] + before[cut:]
    if part == "end":
        return before[:cut] + after[cut:]
    if part == "any":
        some = rng.choice([b"\0", b"\xa7", b"\x01", b"\xff", rng.randbytes(16)])
        rubbish = (some * count)[:count]
        return rubbish if rng.random() < 0.5 else after[:cut] + rubbish[cut:]
    step = 512 if part == "sectors" else 1
    return b"".join((after if rng.random() < 0.5 else before)[i:i + step] for i in range(0, count, step))
