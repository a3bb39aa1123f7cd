"""The cases of an election's text for `check_program`: what the program and the second opinion take it for."""

from pathlib import Path

from check_medium import Finding, check

OK = (0, "")
BAD_ELECTION = (3, "bad election")
# Values of a key that stands a second time behind them, so that only whether they are JSON counts. In each list the
# first ones are, and the others are not.
NUMBERS = ((b"0", b"-0", b"1.5", b"1e308", b"1E+308", b"-1e308", b"1e-400", b"0e400", b"0." + b"0" * 400 + b"1e401",
            b"9" * 308, b"1.7976931348623158e308", b"18446744073709551616", b"-9223372036854775809"),
           (b"1e309", b"-1e309", b"1" + b"0" * 309, b"-" + b"9" * 309, b"1.7976931348623159e308", b"1e99999999999",
            b"00", b"01", b"+1", b".5", b"1.", b"1e", b"0x1", b"NaN", b"Infinity", b"-Infinity"))
STRINGS = ((b'"\\ud83d\\ude00"', b'"\\\\ud800"', b'"\\u005cud800"', b'"\\/"', b'"\\u0000"', b'"\x7f"',
            b'"\xf0\x9f\x98\x80"'),
           (b'"\\ud800"', b'"\\udc00"', b'"\\ude00\\ud83d"', b'"\\ud83d\\n\\ude00"', b'"\\ud800\\ud83d\\ude00"',
            b'"\\ud83d\\u0041"', b'"\\uD83"', b'"\\x41"', b'"\t"', b'"\0"', b'"\xed\xa0\x80"', b'"\xff"', b"'a'"))
OTHERS = ((b"[]", b"{}", b"null", b"true", b'{"a":{"a":1,"a":[]}}', b"[" * 126 + b"]" * 126,
           b'{"":' * 126 + b"0" + b"}" * 126),
          (b"", b"[1,]", b"[,1]", b'{"a":1,}', b'{"a"}', b"{1:2}", b"True", b"nul", b"/**/0", b"[1}",
           b"[" * 127 + b"]" * 127, b'{"":' * 127 + b"0" + b"}" * 127))
# Texts as a whole: what stands in front of the election and behind it, and whether it is one.
AROUND = ((b" \t\r\n", b" \t\r\n", True), (b"\xef\xbb\xbf", b"", False), (b"", b"\0", False), (b"", b",", False),
          (b"", b"{}", False), (b"\x0c", b"", False), (b"\xc2\xa0", b"", False), (b"[", b"]", False))


def texts(good):
    """Texts made from that of the example election: a name, the text, and whether it describes an election."""
    for values in (NUMBERS, STRINGS, OTHERS):
        for is_one, of_kind in zip((True, False), values):
            for value in of_kind:
                front = good.replace(b'"limit":', b'"limit":%s,"limit":' % value)
                yield f"with {value[:40]} in front of its limit", front, is_one
    for value, is_one in ((b"1e308", True), (b"1e309", False), (b'"\\ud83d\\ude00"', True), (b'"\\ud83d"', False)):
        inside = good.replace(b'"choices":4', b'"choices":[{"a":%s}],"choices":4' % value)
        yield f"with {value} deep in a contest", inside, is_one
        yield f"with {value} behind its limit", good.replace(b'"limit":8', b'"limit":8,"limit":%s' % value), False
    for key, is_one in ((b"\\u006cimit", True), (b"limit\\ud83d\\ude00", False), (b"limit\\ud83d", False)):
        yield f"with the key {key}", good.replace(b'"limit"', b'"%s"' % key), is_one
    for front, behind, is_one in AROUND:
        yield f"between {front} and {behind}", front + good + behind, is_one


def election_rows(table, examples):
    good, three, image = ((examples / name).read_bytes() for name in (
        "election.json", "three_ballots.txt", "three_ballots.image"))
    medium = table.file("elections.medium", image * 2 + b"\xa7\xa7")
    for name, text, is_one in texts(good.rstrip(b"\n")):
        path = table.file("election_text.json", text)
        if is_one:
            table.row(f"an election {name}", ["medium", path, "build"], OK, three, image)
        else:
            table.row(f"an election {name}", ["medium", path, "build"], BAD_ELECTION)
        table.same(f"a second opinion on an election {name}", opinion(medium, path), 3 if is_one else BAD_ELECTION)
    assert Path(medium).read_bytes() == image * 2 + b"\xa7\xa7"


def opinion(*words):
    """How many ballots the second opinion finds in a medium, or in parts; its status and line if it finds otherwise."""
    try:
        return check(list(words))
    except Finding as finding:
        return finding.args
