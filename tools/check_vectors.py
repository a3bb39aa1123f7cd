#!/usr/bin/env python3
"""check_vectors.py [VECTORS]

Makes the image and the medium of each vector of examples/vectors.json anew, and compares their sizes and checksums with
those in the file. It needs Python 3.10 or later, check_medium.py beside it, and no program. The last line is 'vectors:
N passed, M failed'.

A vector has the JSON text of an election, its ballots, and what comes of them: SHA-256 and size of the ballots' record
lines, in ascending order of their numbers and each with its line end; of the image, which `build` writes of these lines
in any order; and of the medium, which a checkpoint leaves. The ballots are record lines, or drawn from a word and a
count: of ballot i, for i from 1 to the count, take the SHA-256 digest of the word, a space and i in decimal. Its first
eight bytes, the highest first, are the number, and its ninth byte modulo the number of styles, plus 1, is the style. Of
a contest k on that style the choices are those whose bits are 1 in the first eight bytes of the digest of the word, a
space, i, a space and k, choice 1 being the lowest bit.
"""
import hashlib
import json
import sys
from pathlib import Path

from check_medium import OPEN_GATE, parse_election, place

VECTORS = Path(__file__).resolve().parent.parent / "examples/vectors.json"


def eight_bytes(text):
    digest = hashlib.sha256(text.encode()).digest()
    return int.from_bytes(digest[:8], "big"), digest[8]


def drawn(election, word, count):
    """Ballots that are drawn from a word: tuples of number, style and mark sets."""
    for i in range(1, count + 1):
        number, ninth = eight_bytes(f"{word} {i}")
        style = ninth % len(election.styles)
        sets = [eight_bytes(f"{word} {i} {k}")[0] % 2**choices if k in election.styles[style] else 0
                for k, choices in enumerate(election.choices, 1)]
        yield number, style + 1, *sets


def read_line(line):
    """The ballot of a record line."""
    number, style, groups = line.split(" ")
    marks = [[] if group == "-" else group.split(",") for group in groups.split("/")]
    return int(number), int(style), *(sum(1 << int(choice) - 1 for choice in choices) for choices in marks)


def line_of(ballot):
    number, style, *sets = ballot
    groups = [",".join(str(bit + 1) for bit in range(64) if marks >> bit & 1) or "-" for marks in sets]
    return f"{number} {style} {'/'.join(groups)}\n"


def made(vector):
    """What comes of a vector: the record lines, the image and the medium."""
    election = parse_election(json.dumps(vector["election"]).encode())
    ballots = vector["ballots"]
    ballots = map(read_line, ballots) if isinstance(ballots, list) else drawn(election, **ballots)
    ballots = sorted(ballots)
    cell = election.cell_format()
    image = election.header() + b"".join(cell.pack(*it) for it in place(election, ballots))
    lines = "".join(map(line_of, ballots)).encode()
    return {"lines": lines, "image": image, "medium": image * 2 + bytes([OPEN_GATE] * 2)}


def sums(results):
    return {name: {"bytes": len(data), "sha256": hashlib.sha256(data).hexdigest()} for name, data in results.items()}


def main(path):
    passed = failed = 0
    for vector in json.loads(Path(path).read_text())["vectors"]:
        for name, found in sums(made(vector)).items():
            passed += found == vector[name]
            failed += found != vector[name]
            if found != vector[name]:
                print(f"FAILED the {name} of {vector['name']}: {found}")
    print(f"vectors: {passed} passed, {failed} failed")
    return 1 if failed or not passed else 0


if __name__ == "__main__":
    sys.exit(main(*sys.argv[1:] or [VECTORS]))
