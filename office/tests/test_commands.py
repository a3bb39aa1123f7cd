"""The commands, through the real program where they need it, and what they do to files."""

import hashlib
import json
import os
import stat
import subprocess
import sys
from pathlib import Path

import pytest
from conftest import OFFICE, ROOT, Command
from samples import CHOICES, CONTESTS, GOOD_BOOK, GOOD_ELECTION, STYLES

from ballot_office import VERSION
from ballot_office.people import main
from ballot_office.pure.problems import Refused
from ballot_office.store import chance, files
from ballot_office.store import program as programs

DATA = OFFICE / "tests/data"
FRONT = ("--title", "T", "--jurisdiction", "J", "--date", "2026-11-03")


def mode(path: Path) -> int:
    """The permissions of a file."""
    return stat.S_IMODE(path.stat().st_mode)


def put_book(room: Path) -> None:
    """A book and an election."""
    (room / "b.toml").write_text(GOOD_BOOK)
    (room / "e.json").write_text(GOOD_ELECTION)


def test_from_two_spreadsheets_to_a_medium(real_office: Command, program: Path, tmp_path: Path) -> None:
    """The stranger's way: tables, book, election, sheet, medium; each step is checked."""
    tables = [str(DATA / "contests.csv"), str(DATA / "choices.csv")]
    made = real_office("election", "from-tables", *tables, "--out", "town.toml", *FRONT)
    assert (made.status, made.out) == (0, "book town.toml: 3 contests, 10 choices, 1 style\n"), made
    made = real_office("election", "make", "town.toml", "--election", "town.json", "--expected", "2000")
    assert made.status == 0 and "a medium has 272,898 bytes" in made.out
    text = (tmp_path / "town.json").read_bytes()
    assert hashlib.sha256(text).hexdigest() in made.out
    assert json.loads(text)["contests"][1] == {"choices": 5, "allowed": 3}
    for command, said in (("init", "ready\n"), ("audit", "canonical 0\n")):
        done = subprocess.run([program, "m", "town.json", command], cwd=tmp_path, capture_output=True, text=True)
        assert done.stdout == said
    assert (tmp_path / "m").stat().st_size == 272_898
    ended = real_office("election", "check", "town.toml", "--election", "town.json", "--medium", "m")
    assert (ended.status, ended.out) == (0, "checked: nothing found; the audit says canonical 0\n")
    ended = real_office("election", "sheet", "town.toml", "--election", "town.json", "--out", "page.html")
    assert ended.status == 0


def test_three_tables(office: Command, tmp_path: Path) -> None:
    """With a table of styles; warnings let the book be made; an error writes none."""
    for name, text in (("a", CONTESTS), ("b", CHOICES), ("c", STYLES.replace("1100", "3"))):
        (tmp_path / name).write_text(text)
    ended = office("election", "from-tables", "a", "b", "c", "--out", "o", *FRONT, "--language", "es")
    assert ended.status == 0 and "fewer than 10" in ended.err
    assert 'languages = [\n    "es",' in (tmp_path / "o").read_text()
    (tmp_path / "b").write_text(CHOICES.replace("Bo Lee", "ANA GARCÍA"))
    ended = office("election", "from-tables", "a", "b", "c", "--out", "o2", *FRONT)
    assert ended.status == 1 and not (tmp_path / "o2").exists()
    ended = office("election", "from-tables", "a", "b", "--out", "o2", *FRONT[:4], "--date", "2026-13-03")
    assert ended.status == 1 and "--date: 2026-13-03 is no date" in ended.err


def test_make(office: Command, tmp_path: Path) -> None:
    """Limit and bits, from the words or from the book; the salt; nothing is overwritten."""
    put_book(tmp_path)
    assert "limit 2400, bits 12" in office("election", "make", "b.toml", "--election", "1").out
    assert "limit 2400, bits 12" in office("election", "make", "b.toml", "--election", "2", "--precinct", "p1").out
    parts = office("election", "make", "b.toml", "--election", "3", "--expected", "100000", "--parts", "4")
    assert "limit 30000, bits 16" in parts.out and "each of 4 media has 3,248,290 bytes" in parts.out
    salt = "00000000000000ff"
    given = office("election", "make", "b.toml", "--election", "4", "--salt", salt)
    assert f"salt {salt}" in given.out and json.loads((tmp_path / "4").read_text())["salt"] == salt
    salts = {json.loads((tmp_path / name).read_text())["salt"] for name in "123"}
    assert len(salts) == 3
    before = (tmp_path / "1").read_bytes()
    assert office("election", "make", "b.toml", "--election", "1").status == 3
    assert (tmp_path / "1").read_bytes() == before


def test_version_two_only_where_needed(office: Command, tmp_path: Path) -> None:
    """33 choices make version 2, and 32 do not; a book that fits version 1 refuses a file of version 2."""
    for count, version in ((32, 1), (33, 2), (64, 2)):
        choices = "".join(f"mayor,c{at},Name {at},,\n" for at in range(count))
        (tmp_path / "a").write_text(CONTESTS.split("bond")[0])
        (tmp_path / "b").write_text(CHOICES.split("\n")[0] + "\n" + choices)
        name = f"{count}"
        ended = office("election", "from-tables", "a", "b", "--out", name, *FRONT)
        assert ended.status == 0 and ("note: " in ended.err) == (version == 2), ended
        made = office("election", "make", name, "--election", f"{name}.json", "--expected", "9")
        assert f"version {version}," in made.out
        assert ("version" in (tmp_path / f"{name}.json").read_text()) == (version == 2)
        assert office("election", "check", name, "--election", f"{name}.json").status == 0


def test_check(real_office: Command, program: Path, tmp_path: Path) -> None:
    """Statuses of a check: 0, 1 for errors and warnings, 0 for notes, 2 for words, 3 for files."""
    put_book(tmp_path)
    assert real_office("election", "check", "b.toml").status == 0
    assert real_office("election", "check", "--election", "e.json").out == "checked: nothing found\n"
    beside = real_office("election", "check", "b.toml", "--election", "e.json")
    assert (beside.status, beside.out) == (1, "checked: 4 errors\n"), beside
    assert real_office("election", "check").status == 2
    assert real_office("election", "check", "b.toml", "--medium", "m").status == 2
    few = real_office("election", "check", "b.toml", "--few", "1000")
    assert (few.status, few.out) == (1, "checked: 1 warning\n")
    missing = real_office("election", "check", "--election", "e.json", "--medium", "none")
    assert missing.status == 1 and "no store" in missing.err
    subprocess.run([program, "m", "e.json", "init"], cwd=tmp_path, check=True, capture_output=True)
    assert real_office("election", "check", "--election", "e.json", "--medium", "m").status == 0
    (tmp_path / "other").write_text(GOOD_ELECTION.replace('"bits":3', '"bits":4'))
    assert real_office("election", "check", "--election", "other", "--medium", "m").status == 1
    folder = real_office("election", "check", "--election", "e.json", "--medium", ".")
    assert folder.status == 3 and "the program ended with status 5" in folder.err
    hyphen = real_office("election", "check", "--election", "e.json", "--medium", "--", "-m")
    assert hyphen.status != 0


def test_an_audit_writes_nothing(real_office: Command, program: Path, tmp_path: Path) -> None:
    """A medium is as it was after a check, also its times."""
    put_book(tmp_path)
    subprocess.run([program, "m", "e.json", "init"], cwd=tmp_path, check=True, capture_output=True)
    before = (tmp_path / "m").read_bytes(), (tmp_path / "m").stat().st_mtime_ns, (tmp_path / "m").stat().st_ctime_ns
    real_office("election", "check", "--election", "e.json", "--medium", "m")
    told = (tmp_path / "m").stat()
    assert before == ((tmp_path / "m").read_bytes(), told.st_mtime_ns, told.st_ctime_ns)


def test_names_and_lines(office: Command, tmp_path: Path) -> None:
    """From numbers to names and back."""
    put_book(tmp_path)
    assert (
        office("election", "names", "b.toml", "1", "1").out.splitlines()[1] == "choice 1: Ana García (Green) [garcia]"
    )
    words = office("election", "line", "b.toml", "9 1 1,2/-").out
    assert "contest 1: Mayor: 1 Ana García (Green); 2 Bo Lee (overvote: 1 allowed)" in words
    back = office("election", "line", "b.toml", "--number", "9", "--style", "north", "--mark", "mayor=lee,1")
    assert back.out == "9 1 1,2/-\n"
    assert office("election", "line", "b.toml").status == 2
    assert office("election", "line", "b.toml", "9 1 1/-", "--number", "9").status == 2


def test_numbers(office: Command, tmp_path: Path) -> None:
    """A list and its labels: mode, size, order, check; nothing is overwritten."""
    old = os.umask(0)
    try:
        ended = office("numbers", "--count", "300", "--out", "n", "--labels", "l.html", "--title", "<Ash>")
    finally:
        os.umask(old)
    assert (ended.status, ended.out) == (0, "numbers 300\n")
    assert mode(tmp_path / "n") == mode(tmp_path / "l.html") == 0o600
    numbers = [int(it) for it in (tmp_path / "n").read_text().split()]
    assert len(set(numbers)) == 300 and min(numbers) > 0 and max(numbers) < 2**64
    page = (tmp_path / "l.html").read_text()
    assert page.count("<svg") == 300 and "<bdi>&lt;Ash&gt;</bdi>" in page
    shown = [int("".join(it.split("-")[0].split())) for it in page.split("<span>")[1:] if "</span>" in it]
    assert sorted(shown) == sorted(numbers) and shown != numbers
    assert office("numbers", "--count", "300", "--out", "n").status == 3
    checked = office("numbers", "check", "n")
    assert checked.status == 0 and checked.out.splitlines()[1] == "No test shows that numbers are random."
    assert office("numbers").status == 2
    assert office("numbers", "--count", "5").status == 2
    assert office("numbers", "typed", "1234", "5678-23").status == 1
    assert office("numbers", "--count", "5", "check", "n").status == 2
    (tmp_path / "bom").write_bytes(b"\xef\xbb\xbf" + (tmp_path / "n").read_bytes().replace(b"\n", b"\r\n"))
    assert office("numbers", "check", "bom").out.startswith("numbers 300: no pattern found")
    (tmp_path / "many").write_text("0\n" * 200)
    many = office("numbers", "check", "many")
    assert len(many.err.splitlines()) == 2 and many.out.startswith("numbers 0: 2 findings\n")
    (tmp_path / "many").write_text("0\n" * 200 + "7\n")
    many = office("numbers", "check", "many")
    assert len(many.err.splitlines()) == 100 and "200 findings, of which 100 are told" in many.out


def test_a_list_and_its_labels_are_both_written_or_none(office: Command, tmp_path: Path) -> None:
    """Where the labels cannot be written no list is left; the umask takes rights away."""
    for labels in ("o", "none/l"):
        assert office("numbers", "--count", "3", "--out", "o", "--labels", labels).status == 3
        assert list(tmp_path.iterdir()) == []
    (tmp_path / "l").write_text("")
    assert office("numbers", "--count", "3", "--out", "o", "--labels", "l").status == 3
    assert not (tmp_path / "o").exists()
    put_book(tmp_path)
    for mask, found in ((0o077, 0o600), (0o022, 0o644)):
        old = os.umask(mask)
        try:
            assert office("election", "make", "b.toml", "--election", str(mask)).status == 0
        finally:
            os.umask(old)
        assert mode(tmp_path / str(mask)) == found


def test_numbers_are_drawn_anew(monkeypatch: pytest.MonkeyPatch) -> None:
    """Zero and what came already are drawn once more."""
    drawn = iter([5, 0, 5, 7])
    monkeypatch.setattr("secrets.randbits", lambda _: next(drawn))
    assert chance.draw_numbers(2) == [5, 7]


def test_destroy(office: Command, tmp_path: Path) -> None:
    """A list is overwritten and gone, also under its other names; what is none is left alone."""
    (tmp_path / "n").write_text("1\n2\n")
    os.link(tmp_path / "n", tmp_path / "other")
    assert office("numbers", "destroy", "n").status == 3
    assert (tmp_path / "n").exists()
    ended = office("numbers", "destroy", "--yes", "n")
    assert ended.status == 0 and "1 more name" in ended.out and "snapshot" in ended.out
    assert not (tmp_path / "n").exists() and (tmp_path / "other").read_bytes() == bytes(4)
    (tmp_path / "target").write_text("1\n2\n")
    os.symlink("target", tmp_path / "link")
    linked = office("numbers", "destroy", "--yes", "link")
    assert linked.status == 3 and "the file cannot be destroyed" in linked.err
    assert (tmp_path / "target").read_text() == "1\n2\n"
    with pytest.raises(Refused):
        files.destroy("/dev/null")


def test_files_without_links(tmp_path: Path, monkeypatch: pytest.MonkeyPatch) -> None:
    """On a file system without links a file is written all the same, and none is overwritten."""

    def no_links(*_: object) -> None:
        raise PermissionError(1, "Operation not permitted")

    monkeypatch.setattr("os.link", no_links)
    files.write_new(str(tmp_path / "a"), b"x", 0o600)
    assert (tmp_path / "a").read_bytes() == b"x" and os.listdir(tmp_path) == ["a"]

    def there(*_: object) -> None:
        raise FileExistsError(17, "File exists")

    monkeypatch.setattr("os.link", there)
    with pytest.raises(Refused) as refused:
        files.write_new(str(tmp_path / "b"), b"x", 0o600)
    assert refused.value.problems[0].name == "file-exists" and os.listdir(tmp_path) == ["a"]


def test_the_program_is_one_that_is_served(office: Command, tmp_path: Path, monkeypatch: pytest.MonkeyPatch) -> None:
    """A program whose sum is on the list, or that is named, is used; no other one."""
    put_book(tmp_path)
    (tmp_path / "bin").mkdir()
    fake = tmp_path / "bin/ballot_store"
    words = ("election", "check", "--election", "e.json", "--medium", "m")
    monkeypatch.setenv("PATH", str(tmp_path / "bin"))
    assert "no program ballot_store is found" in office(*words).err
    fake.write_text("#!/bin/sh\necho canonical 0\n")
    fake.chmod(0o755)
    found = hashlib.sha256(fake.read_bytes()).hexdigest()
    monkeypatch.setattr(programs, "SUMS", tmp_path / "sums")
    refused = office(*words)
    assert refused.status == 3 and "has no list of sums" in refused.err and found in refused.err
    (tmp_path / "sums").write_text(f"{'0' * 64}  ballot_store, x86-64-v2\n")
    assert f"serves {'0' * 64}" in office(*words).err
    (tmp_path / "sums").write_text(f"{'0' * 64}  ballot_store, x86-64-v2\n{found}  ballot_store, x86-64-v3\n")
    assert office(*words).status == 0
    assert office("--program-sum", found.upper(), *words).status == 0
    version = office("--version")
    assert version.status == 0
    assert office("--version", "--program-sum", "0" * 64).status == 3
    assert version.out.splitlines() == [
        f"ballot-office {VERSION}", f"serves {'0' * 64}", f"serves {found}", f"program {found} {fake}"
    ]  # fmt: skip


def test_the_version_is_the_programs() -> None:
    """The companion has the version of the manual page of the program."""
    import manual_page  # type: ignore[import]

    assert VERSION == manual_page.version()


@pytest.mark.parametrize("words", [(), ("election",), ("numbers",), *[("election", it) for it in ("make", "check")]])
def test_help(office: Command, words: tuple[str, ...]) -> None:
    """Each level has its help."""
    ended = office(*words, "--help")
    assert ended.status == 0 and ended.out.startswith("Usage: ballot-office")


@pytest.mark.parametrize("words", [("nothing",), ("election", "nothing"), ("--no",), ("election", "make", "b")])
def test_words_that_are_no_command(office: Command, words: tuple[str, ...]) -> None:
    """Other words end with 2."""
    ended = office(*words)
    assert ended.status == 2 and "Traceback" not in ended.err


def test_no_traceback(office: Command, monkeypatch: pytest.MonkeyPatch, tmp_path: Path) -> None:
    """A fault of the companion, a stop and an output that fails are told in a sentence."""
    put_book(tmp_path)
    for fault, said in (
        (RuntimeError("x"), "this is a fault of ballot-office, in "),
        (KeyboardInterrupt(), "the command was stopped; type it again"),
    ):

        def broken(*_: object, wrong: BaseException = fault) -> None:
            raise wrong

        monkeypatch.setattr("ballot_office.people.election.check_book_file", broken)
        ended = office("election", "check", "b.toml")
        assert ended.status == 3 and said in ended.err and "Traceback" not in ended.err


def test_output_that_fails(tmp_path: Path) -> None:
    """Output that cannot be written ends with 3, and not with a traceback."""
    put_book(tmp_path)
    for words in (["election", "check", "b.toml"], ["election", "names", "b.toml", "1"], ["--help"]):
        with open("/dev/full", "w", encoding="utf-8") as full:
            done = subprocess.run(
                [OFFICE / "ballot-office", *words], cwd=tmp_path, stdout=full, stderr=subprocess.PIPE, text=True
            )
        assert done.returncode == 3, done
        assert done.stderr == "the output could not be written: No space left on device; type the command again\n"


def test_the_launcher_tells_missing_libraries(tmp_path: Path) -> None:
    """Where libraries are missing, their packages are named."""
    script = "import sys; sys.modules.update(click=None, qrcode=None); sys.argv[0] = sys.argv[1]\n"
    script += "import importlib.util as u; old = u.find_spec\n"
    script += "u.find_spec = lambda name, *a: None if name in ('click', 'qrcode') else old(name, *a)\n"
    script += "import runpy; runpy.run_path(sys.argv[1], run_name='__main__')"
    done = subprocess.run(
        [sys.executable, "-c", script, str(OFFICE / "ballot-office")], cwd=tmp_path, capture_output=True, text=True
    )
    assert done.returncode == 3
    packages = "python3-click python3-qrcode"
    assert done.stderr == f"these packages are missing: {packages}; type: sudo apt install {packages}\n"


def test_completion() -> None:
    """The completion in bash is click's own, and completes commands and files."""
    environment = {**os.environ, "_BALLOT_OFFICE_COMPLETE": "bash_source"}
    done = subprocess.run([OFFICE / "ballot-office"], env=environment, capture_output=True, text=True)
    assert done.stdout == (OFFICE / "ballot-office.bash").read_text()
    for words, offered in (("ballot-office el", "plain,election"), ("ballot-office numbers check ", "file,")):
        environment = {**os.environ, "_BALLOT_OFFICE_COMPLETE": "bash_complete", "COMP_WORDS": words}
        environment["COMP_CWORD"] = str(len(words.split(" ")) - 1)
        done = subprocess.run([OFFICE / "ballot-office"], env=environment, capture_output=True, text=True)
        assert done.stdout.splitlines() == [offered], done


def test_output_that_nobody_reads(tmp_path: Path) -> None:
    """A reader that ends early, closed output and errors that cannot be written end with 3, and no traceback."""
    put_book(tmp_path)
    office = OFFICE / "ballot-office"
    for command, said in (
        (f"sleep 1 | {{ sleep 2; {office} --help; }} | true; exit ${{PIPESTATUS[1]}}", "the output could not be"),
        (f"{office} election check b.toml >&-", "the output could not be written: it is closed"),
        (f"{office} election check none 2>/dev/full", ""),
    ):
        done = subprocess.run(["bash", "-c", command], cwd=tmp_path, capture_output=True, text=True)
        assert done.returncode == 3 and done.stderr.startswith(said) and "Traceback" not in done.stderr, done


def test_the_book_of_the_manual_page_is_good(office: Command, tmp_path: Path) -> None:
    """The example of the manual page is a book without a finding."""
    import make_pages

    (tmp_path / "b.toml").write_text(make_pages.BOOK)
    assert office("election", "check", "b.toml").out == "checked: nothing found\n"


def test_main_answers_for_other_words(capsys: pytest.CaptureFixture[str]) -> None:
    """Without words the program shows its help."""
    assert main.run([]) == 0
    assert capsys.readouterr().out.startswith("Usage: ballot-office")
    assert (ROOT / "office").is_dir()
