"""The cases of `sample` and `compare` for `check_program`."""

import random
import subprocess
from pathlib import Path

from check_sample import exported, sample

OK = (0, "")
USAGE = (2, "usage")
LONG_SCRIPT = (4, "script too long")
SCRIPT_FAULT = (6, "script read fault")
WRITE_FAULT = (7, "write fault")
NO_STORE = (9, "no store")
OTHER_ELECTION = (11, "other election")
SCRIPT_LIMIT = 67_108_864
THREE = {1: b"1 1 2/1,3\n", 9: b"9 1 1/-\n", 14: b"14 1 -/2\n"}
# dice and count that are none
NO_DICE = ("3a", "", "-1", "+1", " 1", "1 ", "1" * 65, "\u0661")
NO_COUNT = ("0", "01", "32769", "+1", "-1", " 1", "1 ", "", "1.0", "4294967297", "18446744073709551617")


def digest(dice, number):
    """A ticket, as `sha256sum` tells it."""
    message = dice.encode() + number.to_bytes(8, "big")
    return subprocess.run(["sha256sum"], input=message, capture_output=True, check=True).stdout


def drawn(dice, count):
    """What is written of a sample of the three ballots."""
    first = sorted(THREE, key=lambda number: digest(dice, number))[:count]
    return b"sample %d\n" % len(first) + b"".join(THREE[number] for number in sorted(first))


def sample_rows(table, election, medium, empty, broken_off, program):
    path = table.file("sample.medium", medium)
    words = [path, election, "sample"]
    for dice in ("31415926", "6", "0" * 64, "271828"):
        for count in (1, 2, 3, 4, 32768):
            table.row(f"a sample of {count} under {dice}", [*words, dice, str(count)], OK, b"nobody reads this",
                      drawn(dice, count))
    table.same("the medium after samples", Path(path).read_bytes(), medium)
    none = table.file("empty.medium", empty)
    table.row("a sample of no ballots", [none, election, "sample", "6", "1"], OK, output=b"sample 0\n")
    for command in ("sample", "compare"):
        for dice in NO_DICE:
            table.row(f"{command} with the dice {dice!r}", [path, election, command, dice, "1"], USAGE)
        for count in NO_COUNT:
            table.row(f"{command} with the count {count!r}", [path, election, command, "6", count], USAGE)
        for more in ([], ["6"], ["6", "1", "1"]):
            table.row(f"{command} with the words {more}", [path, election, command, *more], USAGE)
        table.row(f"{command} on no medium", ["missing.medium", election, command, "6", "1"], NO_STORE)
        other = table.file("other.medium", medium[:31] + b"\1" + medium[32:])
        table.row(f"{command} under another election", [other, election, command, "6", "1"], OTHER_ELECTION)
    half = (len(medium) - 2) // 2
    torn = b"\xff" * half + medium[half : 2 * half] + b"\0" + medium[-1:]
    path = table.file("torn.medium", torn)
    table.row("a sample of a torn medium", [path, election, "sample", "6", "2"], OK, output=drawn("6", 2))
    table.same("a torn medium after a sample", Path(path).read_bytes(), torn)
    table.shell("a sample to a full device", '"$P" sample.medium "$E" sample 6 2 >/dev/full', WRITE_FAULT)
    compare_rows(table, election, medium, broken_off, program)
    many_rows(table, election, program)


def replies(*words):
    return b"".join(b"line %d %s\n" % (at, word.encode()) for at, word in enumerate(words, 1))


def compare_rows(table, election, medium, broken_off, program):
    path = table.file("compare.medium", medium)
    words = [path, election, "compare", "31415926", "5"]
    six = b"9 1 1/-\n9 1 1/-\n14 1 -/1\n5 1 -/-\nx\n7 2 1/-\n"
    told = replies("match", "repeated", "differs", "outside", "malformed", "invalid")
    table.row("six replies", words, OK, six, told + b"missing 1\n")
    table.row("a comparison of no line", words, OK, b"", b"missing 3\n")
    table.row("a last line with no end", words, OK, six + b"1 1 2/1,3", told + b"line 7 match\nmissing 0\n")
    again = b"14 1 -/1\n14 1 -/2\n14 1 -/1\n14 1 x\n14 1 5/-\n\n1 1 2/1,3\n1 1 2/1\n"
    said = replies("differs", "repeated", "repeated", "malformed", "invalid", "malformed", "match", "repeated")
    table.row("lines of a number that was compared", words, OK, again, said + b"missing 1\n")
    one = [path, election, "compare", "31415926", "1"]
    inside = drawn("31415926", 1).splitlines(keepends=True)[1]
    for line in THREE.values():
        word, missing = ("match", 0) if line == inside else ("outside", 1)
        said = replies(word) + b"missing %d\n" % missing
        table.row(f"the line {line!r} and a sample of one", one, OK, line, said)
    wide = b"9 1 1/-" + b" " * 8192 + b"\n9 1 1/-\n"
    table.row("a line above 8,192 bytes", words, OK, wide, replies("malformed", "match") + b"missing 2\n")
    with broken_off(six + b"1 1 2/") as script:
        done = subprocess.run([program, *words], stdin=script, capture_output=True, cwd=table.room)
    status, why = SCRIPT_FAULT
    table.judge("a comparison that breaks off in a line", (done.returncode, done.stdout, done.stderr),
                (status, told, f"ballot_store: {why}\n".encode()))
    table.row("a comparison that is too long", words, LONG_SCRIPT, six + b"a" * (SCRIPT_LIMIT + 1 - len(six)), told)
    full = 'echo "9 1 1/-" | "$P" compare.medium "$E" compare 6 2 >/dev/full'
    table.shell("a comparison to a full device", full, WRITE_FAULT)
    table.same("the medium after comparisons", Path(path).read_bytes(), medium)


def many_rows(table, election, program):
    """As many ballots as a store may hold, beside the second opinion."""
    roomy = Path(election).read_bytes().replace(b'"limit":8', b'"limit":32768').replace(b'"bits":3', b'"bits":16')
    roomy = table.file("sample.json", roomy)
    path = str(table.room / "many.medium")
    numbers = random.Random(7).sample(range(1, 2**63), 32_768)
    casts = b"".join(b"cast 1 %d 1 %d/-\n" % (number, number % 4 + 1) for number in numbers)
    script = b"open cast 1\n" + casts + b"close\ncheckpoint\nexport\n"
    subprocess.run([program, path, roomy, "init"], capture_output=True, check=True)
    told = subprocess.run([program, path, roomy, "session"], input=script, capture_output=True, check=True).stdout
    held = exported(told.decode())
    table.same("as many ballots as a store may hold", len(held), 32_768)
    for count in (1, 1000, 32_767, 32_768):
        text = "".join(line + "\n" for line in sample("20261129", count, held))
        words = ["20261129", str(count)]
        table.row(f"a sample of {count} of 32,768", [path, roomy, "sample", *words], OK, output=text.encode())
        lines = text.split("\n", 1)[1].encode()
        told = replies(*["match"] * count) + b"missing 0\n"
        table.row(f"the lines of a sample of {count}", [path, roomy, "compare", *words], OK, lines, told)
    large = str(table.room / "generated.medium")
    subprocess.run([program, large, roomy, "init"], capture_output=True, check=True)
    options = ["--seed", "3", "--count", "5000", "--tabs", "4"]
    subprocess.run([program, large, roomy, "large", *options], capture_output=True, check=True)
    told = subprocess.run([program, large, roomy, "session"], input=b"export\n", capture_output=True, check=True).stdout
    for count in (1, 700, 5000):
        text = "".join(line + "\n" for line in sample("55", count, exported(told.decode())))
        words = [large, roomy, "sample", "55", str(count)]
        table.row(f"a sample of {count} after a large run", words, OK, output=text.encode())
