"""Random texts for an election's file, good and bad: those of the other random tools, and changed ones of their own."""

import json
import random
from collections.abc import Iterator
from pathlib import Path

import random_cases  # type: ignore[import]
from election_rows import texts  # type: ignore[import]

EXAMPLES = Path(__file__).resolve().parent.parent.parent / "examples"
# fmt: off
SNIPPETS = [
    b'', b',', b'{', b'}', b'[', b']', b':', b'"', b'\\', b'0', b'-', b'-0', b'1e0', b'8.0', b'1e309',
    b'1e308', b'\t', b'\n', b'\r', b' ', b'\x00', b'\x1f', b'\x7f', b'\xff', b'\xc3\xa9', b'\xed\xa0\x80',
    b'\xef\xbb\xbf', b'\xf0\x9f\x98\x80', b'\\ud800', b'\\ud83d\\ude00', b'\\u0000', b'\\u006c', b'null',
    b'true', b'NaN', b'Infinity', b'//', b"'", b'01', b'18446744073709551615', b'18446744073709551616',
    b"9" * 310, b"[" * 126, b"]" * 126, b'"version":1,', b'"version":2,', b'"version":3,', b'"limit":1,',
    b'"limit":1e309,', b'"choices":2,', b'"allowed":1,', b'"x":1,', b'"":0,', b'"bits":{"a":[1,{"b":null}]},',
    b'"salt":"ffffffffffffffff",', b'"styles":[[1]],', b'"contests":[],',
]
# fmt: on


def vectors() -> list[bytes]:
    """The elections of examples/vectors.json, and those of the other examples."""
    told = json.loads((EXAMPLES / "vectors.json").read_text())["vectors"]
    named = [(EXAMPLES / name).read_bytes() for name in ("election.json", "precinct.json", "county.json")]
    return named + [json.dumps(it["election"]).encode() for it in told]


def changed(rng: random.Random, text: bytes) -> bytes:
    """The text with a byte taken away, a piece doubled, or a snippet put in."""
    begin = rng.randrange(len(text) + 1)
    end = min(len(text), begin + rng.choice([0, 0, 1, 1, 2, rng.randint(0, 40)]))
    kind = rng.randrange(4)
    middle = text[begin:end] if kind == 0 else b"" if kind == 1 else rng.choice(SNIPPETS)
    return text[:begin] + (middle + text[begin:] if kind == 0 else middle + text[end:])


def random_texts(seed: int) -> Iterator[bytes]:
    """Texts without an end: first the fixed ones, then random ones."""
    rng = random.Random(seed)
    fixed = vectors()
    small = [it for it in fixed if json.loads(it)["bits"] <= 8]  # (of others `init` writes megabytes)
    yield from fixed
    yield from (text for _, text, _ in texts((EXAMPLES / "election.json").read_bytes().rstrip(b"\n")))
    while True:
        told = random_cases.election(rng, rng.random() < 0.5)
        told |= {"bits": min(told["bits"], 8), "limit": min(told["limit"], 200)}
        kind = rng.randrange(4)
        if kind == 0:
            yield random_cases.spelled(rng, told).encode("latin-1")
            continue
        text = rng.choice(small) if kind == 1 else json.dumps(told).encode()
        for _ in range(rng.choice([0, 1, 1, 2, 3])):
            text = changed(rng, text)
        yield text
