"""Texts for the cases of `check_program`: lines and schedules that are refused, elections, and options."""

BAD_LINES = [
    (1, b"7 2 1/-"), (1, b"7 1 5/-"), (1, b"7 1 1"), (1, b"7 1 1/-/-"), (1, b"7 1 3,1/-"), (1, b"07 1 1/-"),
    (1, b"0 1 1/-"), (1, b"18446744073709551616 1 1/-"), (1, b"99999999999999999999999999999999 1 1/-"), (1, b"\n"),
    (2, b"9 1 1/-\n\n14 1 -/2"), (1, b"7  1 1/-"), (1, b"7\t1 1/-"), (1, b"7 1 1/-\r\n"), (1, b"7 1 1/- "),
    (1, b" 7 1 1/-"), (1, b"+7 1 1/-"), (1, b"-7 1 1/-"), (1, b"7 256 1/-"), (1, b"7 1 33/-"), (1, b"7 1 1,1/-"),
    (1, b"7 1 -,1/-"), (1, b"7 1 1/-/"), (1, b"7 1"), (1, b"7 1 \xff/-"), (1, b"7 1 1/-\0"),
    (1, b"\xef\xbb\xbf7 1 1/-"), (2, b"9 1 1/-\n9 1 1/-"), (2, b"9 1 1/-\n9 1 2/-"),
    (2, b"9 1 1/-\nx\n9 1 1/-\n"), (2, b"9 1 1/-\n9 1 1/-\nx\n"),
    (9, b"".join(b"%d 1 -/-\n" % n for n in (1, 2, 3, 5, 6, 9, 14, 17)) + b"9 1 1/-\n"),
]

BAD_SCHEDULES = [
    (1, b""), (1, b"start 1 2 3 4 5 6 7 8 9"), (1, b"cast 2\n"), (2, b"start\nlist 1 1"),
    (2, b"start\ncast 0"), (2, b"start\ncast 65"), (2, b"start\ncast 1 1"), (3, b"start\ncast 1\nlist 2 7\n"),
    (3, b"start\ncast 2\nlist 3 0\n"), (3, b"start\ncast 2\nlist 65 1"), (3, b"start\ncast 2\nlist"),
    (3, b"start\ncast 2\nsteps 1 3"), (3, b"start\ncast 2\nsteps 65"),
    (4, b"start\ncast 2\nsteps 1\nlist 1 1"),
    (3, b"start\ncast 2\nsteps  1"), (3, b"start\ncast 2\nsteps 1 "), (3, b"start\ncast 2\ncast 2"),
    (3, b"start\ncast 2\nlist 1 18446744073709551616"), (3, b"start\ncast 1\nsteps" + b" 1" * 4096),
]

INVALID = [b"7 2 1/-", b"7 1 5/-", b"7 1 1", b"7 1 1/-/-", b"7 1 -/4", b"7 1 32/-"]
MALFORMED = [
    b"", b"7", b"7 1", b"7 1 ", b"7 1 1/", b"7 1 /1", b"7 1 3,1/-", b"7 1 1,1/-", b"7 1 1,/-", b"7 1 -,1/-",
    b"7 1 33/-", b"7 1 0/-", b"7 2 1/33", b"07 1 1/-", b"7 01 1/-", b"7 1 01/-", b"0 1 1/-", b"7 0 1/-", b"7 256 1/-",
    b"18446744073709551616 1 1/-", b"184467440737095516150 1 1/-", b"123456789012345678901234567890 1 1/-",
    b"+7 1 1/-", b"-7 1 1/-", b" 7 1 1/-", b"7  1 1/-", b"7\t1 1/-", b"7 1 1/- ", b"7 1 1/-\r", b"7 1 1/-\0",
    "7 1 1/\u00e9".encode(), "\u00e9 1 1/-".encode(), b"7 1" + b" -" + b"/-" * 15 + b"/-",
]
NO_LINES = """open
open cast
open cast 0
open cast 01
open cast 65
open cast 321
open  cast 1
open cast  1
open cast 
open cast 1 
open close 1
Close
closed
close 
 checkpoint
checkpoint 
cast
cast 1
cast 1 
cast 1 9 1
cast 1 9 1 1/- 
cast 1  9 1 1/-
cast 0 9 1 1/-
cast 65 9 1 1/-
cast 65 9 2 1/-
withdraw 1
withdraw 1 0
withdraw 1 09
withdraw 1 9 1 1/-
withdraw 65 9
find 1 18446744073709551616
find 1 -1
find 9
Tally
tally 
export 1
exported
9 1 1/-
 """

OPTIONS = """--seed 0 --count 20000 --tabs 8
--seed 01 --count 20000 --tabs 8
--seed +1 --count 20000 --tabs 8
--seed -1 --count 20000 --tabs 8
--seed 4294967296 --count 20000 --tabs 8
--seed 18446744073709551617 --count 20000 --tabs 8
--seed 1 --count 0 --tabs 8
--seed 1 --count 32769 --tabs 8
--seed 1 --count 020000 --tabs 8
--seed 1 --count 20_000 --tabs 8
--seed 1 --count 20000 --tabs 0
--seed 1 --count 20000 --tabs 65
--seed 1 --count 20000 --tabs 8.0
--seed 1 --count 20000 --tabs 0x8
--seed=1 --count=20000 --tabs=8
--seed=1 1 --count 20000 --tabs 8
--seed 1 --seed 2 --tabs 3
--seed 1 --count 2 --count 2
--seed 1 --seed 1 --seed 1
--seed --count 1 2 --tabs 3
1 --seed 20000 --count 8 --tabs
-seed 1 -count 20000 -tabs 8
seed 1 count 20000 tabs 8
--Seed 1 --count 20000 --tabs 8
--se 1 --count 20000 --tabs 8
--seed 1 --count 20000 --tab 8
--seed  --count 20000 --tabs 8
 1 --count 20000 --tabs 8
--seed 1 --count 20000 --tabs
--seed 1 --count 20000
--seed 1 --count 20000 --tabs 8 9
--seed 1 --count 20000 --tabs 8 --tabs 8
--seed 1 --count 20000 --help 8
--help
-- --seed 1 --count 20000 --tabs
--seed 1 -- 20000 --tabs 8"""


def election_texts(good):
    """Texts made from that of an election: a name, the text, and whether it describes an election."""
    parts = {"contests": b'[{"choices":4,"allowed":1},{"choices":3,"allowed":2}]', "styles": b"[[1,2]]", "limit": b"8",
             "bits": b"3", "salt": b'"0000000000000000"'}

    def with_value(key, value):
        return b"{" + b",".join(b'"%s":%s' % (k.encode(), value if k == key else v) for k, v in parts.items()) + b"}"

    yield "with spaces behind it", good + b"  \n", True
    for key, value in (("limit", b'0,"limit":8'), ("limit", b'8,"\\u006cimit":8'), ("contests",
                       b'[{"choices":99,"choices":4,"allowed":1},{"choices":3,"allowed":2}]')):
        yield f"whose {key} is {value[:40]!r}", with_value(key, value), True
    values = {
        "limit": (b"0", b"32769", b"1.0", b"1e0", b"-0", b"8.0", b"-1", b"1" + b"0" * 29, b'"8"', b'8,"limit":0',
                  b'8,"sixth":8'),
        "bits": (b"17",),
        "styles": (b"[]", b"[[]]", b"[[2,1]]", b"[[1,1]]", b"[[0]]", b"[[1,3]]", b"[1]",
                   b"[" + b"[1]," * 255 + b"[1]]"),
        "contests": (b"[]", b"{}", b'[{"choices":33,"allowed":1}]', b'[{"choices":4,"allowed":0}]',
                     b'[{"choices":4,"allowed":5}]', b'[{"choices":4}]', b'[{"choices":4,"allowed":1,"third":1}]',
                     b'[{"choices":4,"choices":0,"allowed":1}]',
                     b"[" + b",".join([b'{"choices":1,"allowed":1}'] * 17) + b"]"),
        "salt": (b"0", b'"000000000000000A"', b'"000000000000000g"', b'"000000000000000"', b'"00000000000000000"',
                 '"00000000000000\u00e9"'.encode(), b'"000000000000000\\ud800"'),
    }
    for key, bad in values.items():
        for value in bad:
            yield f"whose {key} is {value[:40]!r}", with_value(key, value), False
    for key in parts:
        yield f"without {key}", with_value(key, b"").replace(b'"%s":' % key.encode(), b"").replace(b",,", b","), False
    bad = {"of nothing": b"", "of null": b"null", "of a list": b"[]", "of many lists": b"[" * 200 + b"]" * 200,
           "behind a mark": b"\xef\xbb\xbf" + good, "before a letter": good + b"x", "twice": good + good,
           "of no text": b"\xff"}
    for name, text_of in bad.items():
        yield name, text_of, False
