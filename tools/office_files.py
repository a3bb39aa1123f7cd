#!/usr/bin/env python3
"""What `ballot-office` consists of once it is installed: each file under a prefix, with its mode and its bytes.

    tools/office_files.py BIN PREFIX PROGRAM    puts it into BIN and PREFIX/share, to serve what was built just now
    tools/office_files.py --missing             writes the Debian packages that its Python lacks, one a line
"""
import hashlib
import subprocess
import sys
from collections.abc import Iterator, Sequence
from pathlib import Path
from typing import NamedTuple

import build_plan
import manual_page

ROOT = Path(__file__).resolve().parent.parent
OFFICE = ROOT / "office"
PYTHON = "/usr/bin/python3"
SHARED = "share/ballot-office"
# Folders of the checkout whose files stand in the shared folder, and files, with the folder in which each stands.
PARTS = ("ballot_office/*.py", "ballot_office/*/*.py", "ballot_office/*/templates/*.html", "README.md")
BESIDE = (
    ("man/*.1", "share/man/man1", None),
    ("ballot-office.bash", "share/bash-completion/completions", "ballot-office"),
)
SPDX = """\
SPDXVersion: SPDX-2.3
DataLicense: CC0-1.0
SPDXID: SPDXRef-DOCUMENT
DocumentName: ballot-office-{version}
DocumentNamespace: https://gexulado.example/spdx/ballot-office-{version}-{digest}
Creator: Tool: office_files.py
Created: {created}

PackageName: ballot-office
SPDXID: SPDXRef-ballot-office
PackageVersion: {version}
PackageDownloadLocation: NOASSERTION
FilesAnalyzed: false
PackageLicenseConcluded: NOASSERTION
PackageLicenseDeclared: NOASSERTION
PackageCopyrightText: NOASSERTION
Relationship: SPDXRef-DOCUMENT DESCRIBES SPDXRef-ballot-office
"""
SPDX_USED = """
PackageName: {package}
SPDXID: SPDXRef-{package}
PackageDownloadLocation: {source}
PackageSupplier: Organization: Debian
FilesAnalyzed: false
PackageLicenseConcluded: {licence}
PackageLicenseDeclared: {licence}
PackageCopyrightText: NOASSERTION
PackageComment: used as Debian has it; no part of it stands in this package
Relationship: SPDXRef-ballot-office DEPENDS_ON SPDXRef-{package}
"""
BESIDES = (
    ("python3", "https://www.python.org/", "Python-2.0"),
    ("ballot-store", "NOASSERTION", "NOASSERTION"),
)


class Served(NamedTuple):
    """A program that is served: its bytes, and for which level of processor it was built, or nothing."""

    data: bytes
    level: str = ""


def needs() -> list[tuple[str, str, str]]:
    """The packages of the libraries that it uses, where each comes from, and its licence."""
    sys.path.insert(0, str(OFFICE))
    try:
        from ballot_office.needs import NEEDS
    finally:
        del sys.path[0]
    return [(it.package, it.source, it.licence) for it in NEEDS]


def missing() -> list[str]:
    """The packages that the system's Python lacks; all of them where there is no such Python."""
    script = "import sys; sys.dont_write_bytecode = True; from ballot_office import needs; print(*needs.missing())"
    try:
        done = subprocess.run([PYTHON, "-c", script], cwd=OFFICE, capture_output=True, text=True, check=True)
    except (OSError, subprocess.CalledProcessError):
        return ["python3", *(it[0] for it in needs())]
    return done.stdout.split()


def sums_text(programs: Sequence[Served]) -> bytes:
    """The list of the programs that are served: the sum of each, and its level of processor where that was told."""
    names = {it: f"ballot_store, {it.level}" if it.level else "ballot_store" for it in programs}
    return "".join(f"{hashlib.sha256(it.data).hexdigest()}  {name}\n" for it, name in names.items()).encode()


def spdx_text(version: str, created: str, digest: str) -> bytes:
    """The SPDX list of what it uses."""
    used = [*needs(), *BESIDES]
    text = SPDX.format(version=version, created=created, digest=digest)
    return (text + "".join(SPDX_USED.format(package=it[0], source=it[1], licence=it[2]) for it in used)).encode()


def files(version: str, created: str, programs: Sequence[Served]) -> Iterator[tuple[str, int, bytes]]:
    """Each file under the prefix, its mode and its bytes."""
    yield "bin/ballot-office", 0o755, (OFFICE / "ballot-office").read_bytes()
    digest = hashlib.sha256()
    for pattern in PARTS:
        for path in sorted(OFFICE.glob(pattern)):
            digest.update(path.read_bytes())
            yield f"{SHARED}/{path.relative_to(OFFICE)}", 0o644, path.read_bytes()
    for pattern, folder, name in BESIDE:
        for path in sorted(OFFICE.glob(pattern)):
            yield f"{folder}/{name or path.name}", 0o644, path.read_bytes()
    sums = sums_text(programs)
    digest.update(sums)
    yield f"{SHARED}/program.sums", 0o644, sums
    yield f"{SHARED}/ballot-office.spdx", 0o644, spdx_text(version, created, digest.hexdigest()[:16])


def put(folder: Path, prefix: Path, programs: Sequence[Served]) -> None:
    """Writes all files: the command into its folder, and the others under the prefix."""
    for name, mode, data in files(manual_page.version(), "1970-01-01T00:00:00Z", programs):
        path = folder / "ballot-office" if name == "bin/ballot-office" else prefix / name
        path.parent.mkdir(parents=True, exist_ok=True)
        path.unlink(missing_ok=True)
        path.write_bytes(data)
        path.chmod(mode)


def main(words: list[str]) -> int:
    """Puts the files, or tells what is missing."""
    if words == ["--missing"]:
        print("\n".join(missing()))
        return 0
    if len(words) != 3 or words[0].startswith("-"):
        sys.exit("usage: tools/office_files.py BIN PREFIX PROGRAM  |  --missing")
    put(Path(words[0]), Path(words[1]), [Served(Path(words[2]).read_bytes(), build_plan.LEVEL)])
    return 0


if __name__ == "__main__":
    sys.exit(main(sys.argv[1:]))
