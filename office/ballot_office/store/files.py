"""Files: read up to a limit, written whole under a name that no file has, and destroyed as far as that goes."""

import hashlib
import os
import stat
import tempfile
from pathlib import Path

from ballot_office.pure.problems import Place, Refused, problem

FAILED = 3
PRIVATE, PUBLIC = 0o600, 0o644


def why(error: OSError) -> str:
    """What the system says of a fault."""
    return error.strerror or str(error) or type(error).__name__


def failure(name: str, file: str, /, **facts: object) -> Refused:
    """A refusal because a file or program failed."""
    return Refused([problem(name, Place(file), **facts)], FAILED)


def read_file(file: str, most: int = 64 << 20, and_more: bool = False) -> bytes:
    """The bytes of a file of at most so many; with `and_more` one more of a longer one. Raises `Refused`."""
    try:
        with open(file, "rb") as opened:
            data = opened.read(most + 1)
    except OSError as error:
        raise failure("file-unread", file, why=why(error)) from None
    if len(data) > most and not and_more:
        raise failure("file-too-long", file, most=f"{most:,}")
    return data


def sha256(data: bytes) -> str:
    """The SHA-256 of bytes, in hexadecimal digits."""
    return hashlib.sha256(data).hexdigest()


def see_that_new(file: str) -> None:
    """No file has this name. Raises `Refused`."""
    if os.path.lexists(file):
        raise failure("file-exists", file)


def _umask() -> int:
    """The umask of this process, which the system tells only whoever sets it."""
    mask = os.umask(0o077)
    os.umask(mask)
    return mask


def write_new(file: str, data: bytes, mode: int) -> None:
    """Writes a new file whole, and syncs it, with this mode less what the umask takes away.

    A file of this name is never overwritten. Raises `Refused`.
    """
    see_that_new(file)
    mode &= ~_umask()
    try:
        folder = Path(file).parent
        handle, room = tempfile.mkstemp(prefix=".ballot-office.", dir=folder)
        try:
            with os.fdopen(handle, "wb") as opened:
                opened.write(data)
                opened.flush()
                os.fsync(opened.fileno())
            os.chmod(room, mode)
            _put_in_place(room, file, data, mode)
        finally:
            os.unlink(room)
        _sync_folder(folder)
    except FileExistsError:
        raise failure("file-exists", file) from None
    except OSError as error:
        raise failure("file-unwritten", file, why=why(error)) from None


def _put_in_place(room: str, file: str, data: bytes, mode: int) -> None:
    """Gives a written file its name, unless one has it. Where a file system has no links, it is written once more."""
    try:
        os.link(room, file)
        return
    except FileExistsError:
        raise
    except OSError:
        handle = os.open(file, os.O_WRONLY | os.O_CREAT | os.O_EXCL, mode)
    with os.fdopen(handle, "wb") as opened:
        opened.write(data)
        opened.flush()
        os.fsync(opened.fileno())


def _sync_folder(folder: Path) -> None:
    """Syncs a folder, so that a new name in it, or one that is gone, stays so."""
    handle = os.open(folder, os.O_RDONLY | os.O_DIRECTORY)
    try:
        os.fsync(handle)
    finally:
        os.close(handle)


def destroy(file: str) -> int:
    """Overwrites a file with zeros, and takes its name away. How many other names it has. Raises `Refused`."""
    try:
        handle = os.open(file, os.O_WRONLY | os.O_NOFOLLOW)
        try:
            told = os.fstat(handle)
            if not stat.S_ISREG(told.st_mode):
                raise failure("file-undestroyed", file, why="it is no regular file")
            left = told.st_size
            while left > 0:
                left -= os.write(handle, bytes(min(left, 1 << 20)))
            os.fsync(handle)
        finally:
            os.close(handle)
        os.unlink(file)
        _sync_folder(Path(file).parent)
    except OSError as error:
        raise failure("file-undestroyed", file, why=why(error)) from None
    return told.st_nlink - 1
