"""What the system refuses: files of others, and disks without room; and programs that are not the one served."""

import contextlib
import hashlib
import os
import resource
import subprocess
from collections.abc import Iterator
from pathlib import Path

import pytest
from conftest import Command
from samples import GOOD_BOOK, GOOD_ELECTION

from ballot_office.store import program as programs

NOBODY = 65_534
DENIED = "Permission denied"


@contextlib.contextmanager
def without_rights() -> Iterator[None]:
    """As another user where this is root, whom no file refuses. Names of files have to be those within the folder."""
    if os.geteuid() != 0:
        yield
        return
    os.seteuid(NOBODY)
    try:
        yield
    finally:
        os.seteuid(0)


def names_in(folder: Path) -> list[str]:
    """The names of the files in a folder."""
    return sorted(it.name for it in folder.iterdir())


@pytest.fixture
def room(tmp_path: Path) -> Path:
    """A folder that another user may read, with a book and its election, and in it one where nobody may write."""
    (tmp_path / "b.toml").write_text(GOOD_BOOK)
    (tmp_path / "e.json").write_text(GOOD_ELECTION)
    (tmp_path / "locked").mkdir()
    tmp_path.chmod(0o755)
    (tmp_path / "locked").chmod(0o555)
    return tmp_path


@pytest.mark.parametrize("words", ["election|check|b.toml", "election|check|--election|b.toml", "numbers|check|b.toml"])
def test_a_file_that_may_not_be_read(words: str, office: Command, room: Path) -> None:
    """A book, an election and a list of somebody else."""
    (room / "b.toml").chmod(0)
    with without_rights():
        ended = office(*words.split("|"))
    assert ended.status == 3 and f"b.toml: the file cannot be read: {DENIED}" in ended.err


@pytest.mark.parametrize(
    "words", ["election|make|b.toml|--election|locked/new", "numbers|--count|3|--out|locked/new|--labels|locked/page"]
)
def test_a_folder_that_may_not_be_written(words: str, office: Command, room: Path) -> None:
    """Nothing is written, and nothing is left."""
    with without_rights():
        ended = office(*words.split("|"))
    assert ended.status == 3 and f"locked/new: the file cannot be written: {DENIED}" in ended.err
    assert names_in(room / "locked") == []


def test_a_list_that_may_not_be_destroyed(office: Command, room: Path) -> None:
    """A list of somebody else stays as it is."""
    (room / "n").write_text("1\n2\n")
    (room / "n").chmod(0o444)
    with without_rights():
        ended = office("numbers", "destroy", "--yes", "n")
    assert ended.status == 3 and f"n: the file cannot be destroyed: {DENIED}" in ended.err
    assert (room / "n").read_text() == "1\n2\n"


def test_a_program_that_may_not_be_run(office: Command, room: Path, program: Path) -> None:
    """The real program without the right to run it."""
    (room / "p").write_bytes(program.read_bytes())
    (room / "p").chmod(0o644)
    named = ("--program", "p", "--program-sum", hashlib.sha256(program.read_bytes()).hexdigest())
    ended = office(*named, "election", "check", "--election", "e.json", "--medium", "m")
    assert ended.status == 3 and f"the program could not be run: {DENIED}" in ended.err


def test_a_file_that_grows_too_long(office: Command, room: Path) -> None:
    """Where the system lets no file have more bytes, none is left."""
    before = resource.getrlimit(resource.RLIMIT_FSIZE)
    resource.setrlimit(resource.RLIMIT_FSIZE, (1_000, before[1]))
    try:
        ended = office("numbers", "--count", "1000", "--out", "n")
    finally:
        resource.setrlimit(resource.RLIMIT_FSIZE, before)
    assert ended.status == 3 and "n: the file cannot be written: File too large" in ended.err
    assert names_in(room) == ["b.toml", "e.json", "locked"]


@pytest.fixture
def small_disk(room: Path) -> Iterator[Path]:
    """A file system of 64 KiB in memory, which root alone can mount; elsewhere the test is left out."""
    disk = room / "disk"
    disk.mkdir()
    words = ["mount", "-t", "tmpfs", "-o", "size=64k,mode=755", "tmpfs", str(disk)]
    if os.geteuid() != 0 or subprocess.run(words, capture_output=True, check=False).returncode:
        pytest.skip("a small file system can be mounted by root alone")
    try:
        yield disk
    finally:
        subprocess.run(["umount", str(disk)], check=True)


def test_a_full_disk(office: Command, room: Path, small_disk: Path) -> None:
    """Lists, labels and elections on a disk without room for them: none is left, and no list without its labels."""
    full = "the file cannot be written: No space left on device"
    ended = office("numbers", "--count", "20000", "--out", "disk/n")
    assert ended.status == 3 and f"disk/n: {full}" in ended.err and names_in(small_disk) == []
    ended = office("numbers", "--count", "100", "--out", "n", "--labels", "disk/page")
    assert ended.status == 3 and f"disk/page: {full}" in ended.err and names_in(small_disk) == []
    assert not (room / "n").exists()
    (small_disk / "other").write_bytes(bytes(65_536))
    ended = office("election", "make", "b.toml", "--election", "disk/e")
    assert ended.status == 3 and f"disk/e: {full}" in ended.err and names_in(small_disk) == ["other"]


def test_the_real_program_and_one_more_byte(
    office: Command, room: Path, program: Path, monkeypatch: pytest.MonkeyPatch
) -> None:
    """A program that differs by a byte is refused, unless its sum is named; the one that is served is used."""
    data = program.read_bytes()
    sums = {}
    for name, its in (("served", data), ("other", data + b"\0")):
        (room / name).write_bytes(its)
        (room / name).chmod(0o755)
        sums[name] = hashlib.sha256(its).hexdigest()
    (room / "sums").write_text(f"{sums['served']}  ballot_store\n")
    monkeypatch.setattr(programs, "SUMS", room / "sums")
    subprocess.run([program, "m", "e.json", "init"], cwd=room, check=True, capture_output=True)
    words = ("election", "check", "--election", "e.json", "--medium", "m")
    audited = "checked: nothing found; the audit says canonical 0\n"
    assert office("--program", "served", *words).out == audited
    refused = office("--program", "other", *words)
    assert refused.status == 3 and refused.out == ""
    assert f"other: the program's SHA-256 is {sums['other']}" in refused.err
    assert f"serves {sums['served']}" in refused.err
    assert office("--program", "other", "--program-sum", sums["other"], *words).out == audited
    assert office("--program", "served", "--program-sum", sums["other"], *words).status == 3
