"""What all tests share: the commands within this process, the real program, and files in a folder of their own."""

import hashlib
import os
import sys
from collections.abc import Callable
from pathlib import Path
from typing import NamedTuple

import pytest
from hypothesis import settings

OFFICE = Path(__file__).resolve().parent.parent
ROOT = OFFICE.parent
sys.path[:0] = [str(OFFICE), str(ROOT / "tools"), str(OFFICE / "tests")]

from ballot_office.people.main import run  # noqa: E402

settings.register_profile("office", deadline=None, derandomize=True, database=None)
settings.load_profile("office")
PROGRAM = Path(os.environ.get("BALLOT_STORE") or ROOT / "crates/ballot_store_cli/out/ballot_store_cli")


class Ended(NamedTuple):
    """How a command ended: its status, and what it wrote."""

    status: int
    out: str
    err: str


Command = Callable[..., Ended]


@pytest.fixture
def office(capsys: pytest.CaptureFixture[str], tmp_path: Path, monkeypatch: pytest.MonkeyPatch) -> Command:
    """Runs `ballot-office` on words, in a new folder."""
    monkeypatch.chdir(tmp_path)

    def command(*words: str) -> Ended:
        status = run([str(word) for word in words])
        told = capsys.readouterr()
        return Ended(status, told.out, told.err)

    return command


@pytest.fixture
def program() -> Path:
    """The real program; without one the test is left out."""
    if not PROGRAM.is_file():
        pytest.skip("the program is not built: set BALLOT_STORE, or run tools/build_program")
    return PROGRAM


@pytest.fixture
def real_office(office: Command, program: Path) -> Command:
    """Runs `ballot-office` beside the real program."""
    found = hashlib.sha256(program.read_bytes()).hexdigest()
    return lambda *words: office("--program", str(program), "--program-sum", found, *words)
