#!/usr/bin/python3
"""Real file systems on loop devices, below one temporary folder: for `lose_mounted`.

All is mounted in a mount namespace of this process, below a tmpfs: what it leaves when it is killed the system takes
away with the namespace.
"""
import ctypes
import errno
import fcntl
import os
import shutil
import struct
import subprocess
import tempfile
from pathlib import Path
from types import TracebackType
from typing import NamedTuple

MIB = 1 << 20
ZEROS = bytes(MIB)
NEW_NAMESPACE, PRIVATE = 0x20000, 0x44000  # CLONE_NEWNS, and MS_PRIVATE of a whole tree of mounts
FICLONE, FIEMAP = 0x40049409, 0xC020660B
FREE_LOOP, CONFIGURE_LOOP, CLEARS_ITSELF = 0x4C82, 0x4C0A, 4  # of /dev/loop-control, of a loop device, and its flag


class Failure(Exception):
    """A command of the system that failed, in words."""


class Missing(Exception):
    """What this machine does not have, in words."""


class Kind(NamedTuple):
    """A file system, and how it is made, mounted and, as a start of the machine would, mended."""

    name: str
    type: str
    make: list[str]
    size: int
    options: str = ""
    mend: list[str] = []


KINDS = [
    Kind("ext4", "ext4", ["mkfs.ext4", "-q", "-F", "-b", "4096"], 16 * MIB),
    Kind("ext4-nojournal", "ext4", ["mkfs.ext4", "-q", "-F", "-b", "4096", "-O", "^has_journal"], 16 * MIB, "",
         ["e2fsck", "-f", "-y"]),
    Kind("ext4-data-journal", "ext4", ["mkfs.ext4", "-q", "-F", "-b", "4096"], 16 * MIB, "data=journal"),
    Kind("xfs", "xfs", ["mkfs.xfs", "-q", "-f"], 300 * MIB),
    Kind("btrfs", "btrfs", ["mkfs.btrfs", "-q", "-f"], 110 * MIB),
]  # fmt: skip


def done(*words: object) -> subprocess.CompletedProcess[str]:
    """Runs a command of the system to its end."""
    return subprocess.run(list(map(str, words)), stdin=subprocess.DEVNULL, capture_output=True, text=True, timeout=120)


def must(*words: object) -> str:
    """The output of a command of the system that succeeds; a Failure where it does not."""
    ended = done(*words)
    if ended.returncode:
        told = (ended.stderr or ended.stdout).strip().splitlines() or [f"status {ended.returncode}"]
        raise Failure(f"{' '.join(map(str, words[:4]))}: {told[-1]}")
    return ended.stdout


def sync(folder: Path) -> None:
    """Syncs the file system of a folder, and no other one."""
    must("sync", "--file-system", folder)


class Room:
    """A temporary folder with a tmpfs, in which all else is mounted; at the end nothing of it is left."""

    def __init__(self) -> None:
        if os.geteuid():
            raise Missing("it needs root, to mount")
        if not os.path.exists("/dev/loop-control"):
            raise Missing("there are no loop devices")
        libc = ctypes.CDLL(None, use_errno=True)
        if libc.unshare(NEW_NAMESPACE) or libc.mount(b"none", b"/", None, PRIVATE, None):
            raise Missing(f"it may not mount: {os.strerror(ctypes.get_errno())}")
        self.path = Path(tempfile.mkdtemp(prefix="lose_mounted."))
        # In other namespaces it would look empty, and to remove it would take all mounts away.
        (self.path / "in_use").write_text(f"Process {os.getpid()} has mounted a folder here.\n")

    def __enter__(self) -> "Room":
        try:
            must("mount", "-t", "tmpfs", "-o", f"size={4096 * MIB}", "tmpfs", self.path)
        except Failure as failure:
            shutil.rmtree(self.path)
            raise Missing(f"it may not mount: {failure}")
        return self

    def __exit__(self, kind: type[BaseException] | None, why: BaseException | None, at: TracebackType | None) -> None:
        """Unmounts what is mounted below, the deepest first, and lets go the loop devices whose files lie below."""
        mounted = [line.split()[4] for line in Path("/proc/self/mountinfo").read_text().splitlines()]
        for folder in reversed([path for path in mounted if self.holds(path)]):
            if done("umount", folder).returncode:
                done("umount", "--lazy", folder)
            self.detach()
        self.detach()
        shutil.rmtree(self.path, ignore_errors=True)

    def holds(self, path: str) -> bool:
        """Whether a path is the room or lies below."""
        return path == str(self.path) or path.startswith(f"{self.path}/")

    def detach(self) -> None:
        """Lets go the loop devices over files of the room that nothing has mounted."""
        for backing in Path("/sys/block").glob("loop*/loop/backing_file"):
            try:
                ours = self.holds(backing.read_text().strip())
            except OSError:
                continue
            if ours:
                done("losetup", "--detach", f"/dev/{backing.parts[3]}")

    def folder(self, *names: str) -> Path:
        """A folder of this name below the room."""
        path = self.path.joinpath(*names)
        path.mkdir(parents=True, exist_ok=True)
        return path


class Device:
    """A loop device over a file with a file system, and the folder where that is mounted."""

    def __init__(self, kind: Kind, backing: Path, folder: Path, options: str = "") -> None:
        self.kind, self.backing, self.folder = kind, backing, folder
        self.options = ",".join(filter(None, [kind.options, options])) or "defaults"
        self.file, self.loop = attached(backing)

    def mount(self) -> None:
        """Mounts it, after what a start of the machine would mend."""
        if self.kind.mend:
            done(*self.kind.mend, self.loop)
        must("mount", "-t", self.kind.type, "-o", self.options, self.loop, self.folder)

    def unmount(self) -> None:
        """Unmounts it, so that what the system had of it in memory is gone."""
        must("umount", self.folder)

    def close(self) -> None:
        """Lets go the device, mounted or not."""
        if os.path.ismount(self.folder):
            self.unmount()
        if self.kind.type == "btrfs":  # which would take another device with the same mark for this one
            done("btrfs", "device", "scan", "--forget", self.loop)
        os.close(self.file)

    def writes(self) -> tuple[str, ...]:
        """How many writes the device has ended, their sectors, and how many requests are under way."""
        told = Path("/sys/block", Path(self.loop).name, "stat").read_text().split()
        return told[4], told[6], told[8]


def attached(backing: Path) -> tuple[int, str]:
    """A loop device over a file, as an open file and by its name. Closed and unmounted it lets the file go."""
    control, file = os.open("/dev/loop-control", os.O_RDWR), os.open(backing, os.O_RDWR)
    try:
        while True:
            name = f"/dev/loop{fcntl.ioctl(control, FREE_LOOP)}"
            loop = os.open(name, os.O_RDWR)
            try:
                fcntl.ioctl(loop, CONFIGURE_LOOP, struct.pack("=LL52xL240x", file, 0, CLEARS_ITSELF))
                return loop, name
            except OSError as error:
                os.close(loop)
                if error.errno != errno.EBUSY:  # else another process was faster
                    raise Failure(f"{name}: {error}") from error
    finally:
        os.close(control)
        os.close(file)


def formatted(kind: Kind, backing: Path, size: int | None = None) -> Path:
    """Makes a file with an empty file system."""
    backing.touch()
    os.truncate(backing, size or kind.size)
    must(*kind.make, backing)
    return backing


def is_supported(room: Room, kind: Kind) -> str:
    """Nothing where a file system can be made and mounted here, else why not."""
    if not shutil.which(kind.make[0]):
        return f"{kind.make[0]} is not installed"
    backing, device = room.path / "tried", None
    try:
        device = Device(kind, formatted(kind, backing), room.folder("mounted"))
        device.mount()
    except Failure as failure:
        return str(failure)
    finally:
        if device:
            device.close()
        backing.unlink(missing_ok=True)
    return ""


class Copies:
    """A folder in which a file is copied as it is at one moment, also while a loop device writes to it.

    Where the kernel has xfs or btrfs the folder is on such a file system, and shares the blocks: this excludes writes.
    Else the bytes are copied, and a copy during which the device wrote is thrown away."""

    def __init__(self, room: Room, shares: bool = True) -> None:
        self.shares, self.thrown = False, 0
        self.path = room.folder("copies")
        for kind in [kind for kind in KINDS if kind.type in ("xfs", "btrfs") and shares]:
            try:
                host = Device(kind, formatted(kind, room.path / "host", 2048 * MIB), self.path)
                host.mount()
            except (Failure, FileNotFoundError):
                continue
            self.shares = True
            break

    def copy(self, source: Path, target: Path) -> None:
        """Copies a file that nothing writes to."""
        if not self.shares:
            return copy_data(source, target)
        with open(source, "rb") as whole, open(target, "xb") as copy:
            fcntl.ioctl(copy, FICLONE, whole.fileno())

    def snapshot(self, device: Device, target: Path) -> bool:
        """Copies a device as it is at one moment; no where that did not come about."""
        if self.shares:
            self.copy(device.backing, target)
            return True
        before = device.writes()
        copy_data(device.backing, target)
        if before[2] == "0" and device.writes() == before:
            return True
        self.thrown += 1
        target.unlink()
        return False


def copy_data(source: Path, target: Path) -> None:
    """Copies a file, also to another file system, and leaves out holes and pieces that are all zeros."""
    with open(source, "rb") as reader, open(target, "xb") as writer:
        size, at = os.fstat(reader.fileno()).st_size, 0
        os.truncate(writer.fileno(), size)
        while at < size:
            try:
                at = os.lseek(reader.fileno(), at, os.SEEK_DATA)
            except OSError:  # nothing but a hole
                break
            piece = os.pread(reader.fileno(), min(len(ZEROS), os.lseek(reader.fileno(), at, os.SEEK_HOLE) - at), at)
            if not ZEROS.startswith(piece):
                os.pwrite(writer.fileno(), piece, at)
            at += len(piece)


def extents(path: Path) -> list[tuple[int, int, int]]:
    """Where a file is, as its file system counts: the first byte in the file, the first one there, and how many."""
    most = 128
    asked = bytearray(struct.pack("=QQLLLL", 0, 2**64 - 1, 1, 0, most, 0) + bytes(56 * most))  # 1: once it is synced
    with open(path, "rb") as file:
        fcntl.ioctl(file, FIEMAP, asked)
    count = struct.unpack_from("=L", asked, 20)[0]
    found = (struct.unpack_from("=QQQ", asked, 32 + 56 * i) for i in range(count))
    return [(start, place, length) for start, place, length in found]
