"""The cases of the two versions of an election for `check_program`."""

import json
import random
import struct
import subprocess
import sys
from pathlib import Path

from check_sample import exported, sample

OK = (0, "")
BAD_ELECTION = (3, "bad election")
NO_STORE = (9, "no store")
OTHER_ELECTION = (11, "other election")
EXISTS = (12, "store exists")
OPEN_GATES = b"\xa7\xa7"
# of each version the most contests, the most choices, and the bytes of a mark set
LIMITS = {1: (16, 32, 4), 2: (24, 64, 8)}
# the image of the three ballots of the examples in version 2: a header, and cells of 25 bytes, of which 4 to 6 are full
IMAGE = bytes.fromhex("48494253544f524500020302000000080000000000000000") + bytes(8 + 100) + bytes.fromhex(
    "00000000000000090100000000000000010000000000000000"
    "000000000000000e0100000000000000000000000000000002"
    "00000000000000010100000000000000020000000000000005") + bytes(225)
MEDIUM = IMAGE * 2 + OPEN_GATES
# values of the key `version` that make a text no election
NO_VERSIONS = ("0", "3", "-1", "-2", "-0", "1.0", "2.0", "2e0", '"1"', '"2"', "true", "null", "[2]", "258", "65537",
               "65538", "4294967298", "18446744073709551618", "1" + "0" * 29, '2,"version":3', '1,"version":0',
               '1,"version":2.0', '2,"version":"2"', '2,"\\u0076ersion":null')
# values that make it one, and its version
VERSIONS = {"1": 1, "2": 2, '2,"version":1': 1, '1,"version":2': 2, '3,"version":2': 2, '"2","version":1': 1,
            '2.0,"version":2': 2, '0,"\\u0076ersion":2': 2, 'null,"version":1': 1,
            '18446744073709551618,"version":2': 2}


class Room:
    """The table of rows, the program, and the example election and its ballots in both versions."""

    def __init__(self, table, program, examples):
        self.table, self.program, self.examples = table, program, examples
        self.parts = json.loads((examples / "election.json").read_text())
        self.three = (examples / "three_ballots.txt").read_bytes()
        self.images = {1: (examples / "three_ballots.image").read_bytes(), 2: IMAGE}
        self.media = {version: image_of * 2 + OPEN_GATES for version, image_of in self.images.items()}
        self.made = 0
        self.elections = {version: self.election({**self.parts, "version": version}) for version in (1, 2)}

    def election(self, parts):
        """A file with this election, which is a text or its parts."""
        self.made += 1
        text_of = parts if isinstance(parts, str) else json.dumps(parts)
        return self.table.file(f"version{self.made}.json", text_of.encode())

    def on_medium(self, name, medium, path, ending, script, output=b"", after=None, command="session"):
        """A command on a medium of these bytes, and what the medium has then: the same, if nothing is told."""
        place = self.table.file("version.medium", medium)
        self.table.row(name, [place, path, command], ending, script, output)
        self.table.same(f"the medium after {name}", Path(place).read_bytes(), medium if after is None else after)

    def opinion(self, name, medium, path):
        """The audit of a medium, and what the second opinion says of it."""
        place = self.table.file("opinion.medium", medium)
        ours = subprocess.run([self.program, place, path, "audit"], capture_output=True)
        second = [sys.executable, Path(__file__).resolve().parent / "check_medium.py", place, path]
        theirs = subprocess.run(second, capture_output=True)
        said = ours.stdout or ours.stderr.removeprefix(b"ballot_store: ")
        self.table.same(f"a second opinion on {name}", (theirs.returncode, theirs.stdout), (ours.returncode, said))


def text(*lines):
    return b"".join(line.encode() + b"\n" for line in lines)


def ballot(line):
    """Number, style and mark sets of a record line."""
    number, style, groups = line.split(" ")
    marks = [[] if group == "-" else group.split(",") for group in groups.split("/")]
    return int(number), int(style), [sum(1 << int(choice) - 1 for choice in choices) for choices in marks]


def image(parts, lines):
    """The image of the ballots of some record lines, as docs/FORMATS.md says."""
    version, contests, bits, limit = parts.get("version", 1), len(parts["contests"]), parts["bits"], parts["limit"]
    width, salt = LIMITS[version][2], int(parts["salt"], 16)
    cells = [bytes(9 + width * contests)] * (2**bits + limit)
    for number, style, sets in sorted(map(ballot, lines), reverse=True):
        place = ((number ^ salt) * 0x9E3779B97F4A7C15 % 2**64) >> (64 - bits)
        while any(cells[place]):
            place += 1
        cells[place] = struct.pack(">QB", number, style) + b"".join(one.to_bytes(width, "big") for one in sets)
    return b"HIBSTORE" + struct.pack(">HBBIQQ", version, bits, contests, limit, salt, 0) + b"".join(cells)


def tally(parts, lines):
    """The tally of the ballots of some record lines."""
    told = [f"tally {len(lines)}"]
    ballots = [ballot(line) for line in lines]
    for k, contest in enumerate(parts["contests"], 1):
        choices, allowed = contest["choices"], contest["allowed"]
        sets = [sets[k - 1] for _, style, sets in ballots if k in parts["styles"][style - 1]]
        counted = [one for one in sets if one.bit_count() <= allowed]
        under = sum(allowed - one.bit_count() for one in counted)
        told.append(f"contest {k} under {under} over {len(sets) - len(counted)}")
        told += [f"choice {k} {c} {sum(one >> c - 1 & 1 for one in counted)}" for c in range(1, choices + 1)]
    return told


def plain(contests, choices, version, allowed=1, **more):
    """The parts of an election whose contests are alike, on one style; of version 0 without its key."""
    parts = {"contests": [{"choices": choices, "allowed": allowed}] * contests,
             "styles": [list(range(1, contests + 1))], "limit": 1, "bits": 0, "salt": "0" * 16, **more}
    return {**parts, "version": version} if version else parts


def version_rows(table, program, examples):
    room = Room(table, program, examples)
    for rows in (example_rows, wide_contest_rows, limit_rows, key_rows, grammar_rows, other_version_rows,
                 generated_rows, thread_rows, opinion_rows, county_rows):
        rows(room)


def example_rows(room):
    """The three ballots of the examples in version 2."""
    table, path = room.table, room.elections[2]
    table.row("three ballots in version 2", ["medium", path, "build"], OK, room.three, IMAGE)
    backwards = b"".join(reversed(room.three.splitlines(keepends=True)))
    table.row("three ballots in version 2, in another order", ["medium", path, "build"], OK, backwards, IMAGE)
    empty = IMAGE[:32] + bytes(400)
    medium = table.room / "two.medium"
    table.row("a medium of version 2", [str(medium), path, "init"], OK, output=b"ready\n")
    table.same("the bytes of a medium of version 2", medium.read_bytes(), empty * 2 + OPEN_GATES)
    table.row("a medium of version 2 that is there", [str(medium), path, "init"], EXISTS)
    script, replies = ((room.examples / f"three_ballots.{kind}").read_bytes() for kind in ("session", "replies"))
    room.on_medium("a session of version 2", empty * 2 + OPEN_GATES, path, OK, script, replies, MEDIUM)
    room.on_medium("an audit of version 2", MEDIUM, path, OK, b"", b"canonical 3\n", command="audit")
    lines = ["1 1 2/1,3", "9 1 1/-", "14 1 -/2"]
    told = text(*tally(room.parts, lines), "export 3", *lines)
    for version in (1, 2):
        room.on_medium(f"tally and export in version {version}", room.media[version], room.elections[version], OK,
                       b"tally\nexport\n", told)
    race = b"start\ncast 2\nlist 1 1\nlist 2 9\nsteps 1 2 2 1 2 1 2 2\n"
    told = text("steps 8", "cell 4 9", "rest", "cell 4 9", "cell 5 1", "1 1 accepted", "2 1 accepted")
    table.row("a replay in version 2", ["medium", path, "replay"], OK, race, told)
    torn = IMAGE + b"Z" * 432 + b"\xa7\x3c"
    room.on_medium("a torn bank of version 2", torn, path, OK, b"", after=MEDIUM)
    for place, byte, ending in ((8 + 1, 1, OTHER_ELECTION), (8 + 1, 3, OTHER_ELECTION), (8, 1, OTHER_ELECTION),
                                (140, 2, (10, "damaged cell 4")), (141, 0x80, (10, "damaged cell 4")),
                                (148, 0x10, (10, "damaged cell 4"))):
        changed = MEDIUM[:place] + bytes([byte]) + MEDIUM[place + 1:]
        room.on_medium(f"a medium of version 2 with byte {place} of {byte}", changed, path, ending, script)


def wide_contest_rows(room):
    """One contest of 64 choices, of which the last is marked; overvotes of 64 marks."""
    table, one = room.table, plain(1, 64, 2)
    cells = bytes.fromhex("0000000000000007018000000000000000") + bytes(17)
    header = b"HIBSTORE" + bytes.fromhex("0002000100000001") + bytes(16)
    assert len(header + cells) == 66
    table.row("choice 64", ["medium", room.election(one), "build"], OK, b"7 1 64", header + cells)
    for version in (0, 1, 3):
        table.row(f"64 choices in version {version}", ["medium", room.election(plain(1, 64, version)), "build"],
                  BAD_ELECTION, b"7 1 64")
    parts = plain(2, 64, 2, limit=8, bits=3)
    parts["contests"] = [{"choices": 64, "allowed": 1}, {"choices": 64, "allowed": 64}]
    every = ",".join(map(str, range(1, 65)))
    lines = ["1 1 64/64", f"2 1 {every}/{every}", "3 1 63,64/63,64", "4 1 -/-", "5 1 33/1,33", "6 1 32/32"]
    path = room.election(parts)
    medium = image(parts, lines) * 2 + OPEN_GATES
    script = text("open cast 1", *(f"cast 1 {line}" for line in lines), "close", "checkpoint", "tally", "export")
    met = ["casting 1", *(f"1 {k} accepted" for k in range(1, 7)), "closed 6", "checkpoint 6"]
    counts = tally(parts, lines)
    assert counts[1] == "contest 1 under 1 over 2" and counts[65] == "choice 1 64 1" and counts[130] == "choice 2 64 3"
    none = image(parts, []) * 2 + OPEN_GATES
    room.on_medium("marks up to choice 64", none, path, OK, script, text(*met, *counts, "export 6", *lines), medium)
    room.on_medium("an audit of marks up to choice 64", medium, path, OK, b"", b"canonical 6\n", command="audit")
    place = table.file("version.medium", medium)
    drawn = text("sample 6", *lines)
    table.row("a sample of marks up to choice 64", [place, path, "sample", "6", "6"], OK, output=drawn)
    told = [*(f"line {k} match" for k in range(1, 7)), "line 7 malformed", "line 8 repeated", "missing 0"]
    table.row("lines of marks up to choice 64", [place, path, "compare", "6", "6"], OK,
              text(*lines, "7 1 64/65", "5 1 -/-"), text(*told))


def limit_rows(room):
    """The most contests and choices of each version, and one more."""
    table = room.table
    for version in (0, 1, 2):
        most_contests, most_choices, _ = LIMITS[version or 1]
        for contests in (16, 17, 24, 25):
            parts = plain(contests, 1, version)
            fits = contests <= most_contests
            table.row(f"{contests} contests in version {version}", ["medium", room.election(parts), "build"],
                      OK if fits else BAD_ELECTION, b"", image(parts, []) if fits else b"")
        for choices in (32, 33, 64, 65):
            for allowed in (1, choices, choices + 1):
                parts = plain(1, choices, version, allowed)
                fits = choices <= most_choices and allowed <= choices
                table.row(f"{choices} choices in version {version}, {allowed} allowed",
                          ["medium", room.election(parts), "build"], OK if fits else BAD_ELECTION, b"",
                          image(parts, []) if fits else b"")
        for styles, fits in (([[most_contests]], True), ([[most_contests + 1]], False)):
            parts = plain(most_contests, 1, version, styles=styles)
            table.row(f"the style {styles} in version {version}", ["medium", room.election(parts), "build"],
                      OK if fits else BAD_ELECTION, b"", image(parts, []) if fits else b"")


def key_rows(room):
    """Where the key stands, and what it says."""
    table = room.table
    pairs = [f'"{key}":{json.dumps(value)}' for key, value in room.parts.items()]

    def row(name, members, version):
        path = room.election("{" + ",".join(members) + "}")
        ending, output = (OK, room.images[version]) if version else (BAD_ELECTION, b"")
        table.row(f"an election {name}", ["medium", path, "build"], ending, room.three, output)

    for version in (1, 2):
        for place in range(len(pairs) + 1):
            members = [*pairs[:place], f'"version":{version}', *pairs[place:]]
            row(f"with version {version} as key {place + 1}", members, version)
        row(f"with version {version} and a seventh key", [*pairs, f'"version":{version}', '"more":1'], None)
        row(f"with version {version} and a key too few", [*pairs[1:], f'"version":{version}'], None)
    row("with version 3 in front and 2 behind", ['"version":3', *pairs, '"version":2'], 2)
    row("with version 2 in front and 3 behind", ['"version":2', *pairs, '"version":3'], None)
    row("with version 2 in front and 1 behind", ['"version":2', *pairs, '"version":1'], 1)
    for value in NO_VERSIONS:
        row(f"with version {value:.40}", [*pairs, f'"version":{value}'], None)
    for value, version in VERSIONS.items():
        row(f"with version {value}", [*pairs, f'"version":{value}'], version)
    for key in ("Version", "version ", "versio", "versions", ""):
        row(f"with the key {key!r}", [*pairs, f'"{key}":2'], None)
    inside = room.election('{"version":2,' + ",".join(pairs).replace('"allowed"', '"version":2,"allowed"') + "}")
    table.row("a version inside a contest", ["medium", inside, "build"], BAD_ELECTION)


def grammar_rows(room):
    """Lines between the two grammars: a choice or a group that only version 2 spells is malformed in version 1."""
    table = room.table
    cases = [("7 1 32/-", "invalid", "invalid"), ("7 1 33/-", "malformed", "invalid"),
             ("7 1 64/-", "malformed", "invalid"), ("7 1 65/-", "malformed", "malformed"),
             ("7 1 640/-", "malformed", "malformed"), ("7 1 064/-", "malformed", "malformed"),
             ("7 1 64,63/-", "malformed", "malformed"), ("7 1 64,64/-", "malformed", "malformed"),
             ("7 2 1/64", "malformed", "invalid")]
    cases += [("7 1 " + "/".join("-" * groups), *met) for groups, met in (
        (16, ("invalid", "invalid")), (17, ("malformed", "invalid")), (24, ("malformed", "invalid")),
        (25, ("malformed", "malformed")))]
    for version, path in room.elections.items():
        script = ["open cast 1", *(f"cast 1 {case[0]}" for case in cases), "close"]
        told = ["casting 1", *(f"line {k} {case[version]}" for k, case in enumerate(cases, 2)), "closed 3"]
        room.on_medium(f"lines of either version in version {version}", room.media[version], path, OK, text(*script),
                       text(*told))
        place = table.file("compared.medium", room.media[version])
        replies = text(*(f"line {k} {case[version]}" for k, case in enumerate(cases, 1)), "missing 3")
        table.row(f"a comparison of these lines in version {version}", [place, path, "compare", "6", "3"], OK,
                  text(*(case[0] for case in cases)), replies)
        for line, *_ in cases:
            table.row(f"the line {line:.20} in version {version}", ["medium", path, "build"], (15, "bad line 1"),
                      line.encode())


def other_version_rows(room):
    """A medium of one version under an election of the other."""
    table, paths, media = room.table, room.elections, room.media
    for held, asked in ((1, 2), (2, 1)):
        for command in ("session", "audit"):
            room.on_medium(f"{command} of a medium of version {held} in version {asked}", media[held], paths[asked],
                           NO_STORE, b"checkpoint\n", command=command)
    room.on_medium("init in version 1 on a medium of version 2", media[2], paths[1], (13, "wrong size 866"), b"",
                   command="init")
    empty = image({**room.parts, "version": 2}, []) * 2 + OPEN_GATES
    room.on_medium("init in version 2 on a medium of version 1", media[1], paths[2], OK, b"", b"ready\n", empty, "init")
    longer = media[1].ljust(864, b"\0") + OPEN_GATES
    shorter = media[2][:608] + OPEN_GATES
    for name, medium, asked in (("longer medium of version 1", longer, 2), ("shorter medium of version 2", shorter, 1)):
        for command in ("session", "audit"):
            room.on_medium(f"{command} of a {name} in version {asked}", medium, paths[asked], OTHER_ELECTION,
                           b"checkpoint\n", command=command)
    # a cell of four contests in version 1 is as large as one of two contests in version 2
    both = {1: plain(4, 4, 1, limit=8, bits=3), 2: plain(2, 4, 2, limit=8, bits=3)}
    for held, asked in ((1, 2), (2, 1)):
        medium = image(both[held], []) * 2 + OPEN_GATES
        path = room.election(both[asked])
        name = f"version {asked} on a medium of version {held} of the same size"
        room.on_medium(f"a session in {name}", medium, path, OTHER_ELECTION, b"checkpoint\n")
        room.on_medium(f"init in {name}", medium, path, EXISTS, b"", command="init")


def generated_rows(room):
    """A large run under the widest election of each version, and its medium."""
    for version, (contests, choices, _) in LIMITS.items():
        styles = [list(range(1, contests + 1)), [1, contests], [contests // 2]]
        parts = plain(contests, choices, version, allowed=2, styles=styles, limit=300, bits=8, salt="0123456789abcdef")
        path, lines = room.election(parts), []
        for i in range(1, 301):
            style = i % 3
            marked = [k in styles[style] and i % 7 != 0 for k in range(1, contests + 1)]
            groups = [str(1 + (i + k) % choices) if mark else "-" for k, mark in enumerate(marked, 1)]
            lines.append(f"{(5 + i) * 0xD1342543DE82EF95 % 2**64} {style + 1} {'/'.join(groups)}")
        held = [line for i, line in enumerate(lines, 1) if i % 10]
        medium = image(parts, held) * 2 + OPEN_GATES
        none = image(parts, []) * 2 + OPEN_GATES
        for tabs in ("1", "4"):
            place = room.table.file("version.medium", none)
            words = [place, path, "large", "--seed", "5", "--count", "32768", "--tabs", tabs]
            told = text("closed 300", "closed 270", "checkpoint 270", *tally(parts, held))
            room.table.row(f"a large run in version {version}, {tabs} tabulators", words, OK, output=told)
            room.table.same(f"the medium after a large run in version {version}", Path(place).read_bytes(), medium)
        sheets = text(*held)
        told = text(*(f"line {k} match" for k in range(1, 271)), "missing 0")
        words = [place, path, "compare", "8", "300"]
        room.table.row(f"all lines of a large run in version {version}", words, OK, sheets, told)


def thread_rows(room):
    """A tally of so many mark sets that four threads count it, against the export beside it."""
    parts = plain(16, 4, 1, allowed=2, limit=32768, bits=15, salt="0123456789abcdef")
    start = [room.program, str(room.table.room / "threads.medium"), room.election(parts)]
    for words in (["init"], ["large", "--seed", "3", "--count", "32768", "--tabs", "4"]):
        subprocess.run([*start, *words], check=True, stdout=subprocess.DEVNULL)
    done = subprocess.run([*start, "session"], input="tally\nexport\n", capture_output=True, text=True)
    told, _, lines = done.stdout.partition("export ")
    room.table.same("a tally counted by four threads", told.splitlines(), tally(parts, lines.splitlines()[1:]))


def opinion_rows(room):
    """The audit of media of version 2, and the second opinion on them."""
    chance, path = random.Random(2), room.elections[2]
    media = [MEDIUM, MEDIUM[:-1], MEDIUM + b"\0", MEDIUM[:864] + b"\0\xa7", MEDIUM[:864] + bytes(2)]
    for among in (432, len(MEDIUM)) * 20:
        changed = bytearray(MEDIUM)
        changed[chance.randrange(among)] ^= 1 << chance.randrange(8)
        media.append(bytes(changed))
    for number, medium in enumerate(media, 1):
        room.opinion(f"medium {number} of version 2", medium, path)
    for held, asked in ((1, 2), (2, 1)):
        room.opinion(f"a medium of version {held} in version {asked}", room.media[held], room.elections[asked])
    room.opinion("a longer medium of version 1", room.media[1].ljust(864, b"\0") + OPEN_GATES, path)
    for value in ("0", "2.0", '2,"version":3', '3,"version":2', '"2"', "true"):
        pairs = json.dumps(room.parts)[:-1] + f',"version":{value}' + "}"
        room.opinion(f"version {value}", MEDIUM, room.election(pairs))


def county_rows(room):
    """A day in a county of 20 contests, one of them of 40 choices, and what is said of its medium."""
    table, path = room.table, str(room.examples / "county.json")
    parts = json.loads(Path(path).read_text())
    script, replies = ((room.examples / f"county.{kind}").read_bytes() for kind in ("session", "replies"))
    medium = table.room / "county.medium"
    table.row("a medium for a county", [str(medium), path, "init"], OK, output=b"ready\n")
    table.row("the day of a county", [str(medium), path, "session"], OK, script, replies)
    held = replies.decode().split("export ")[1].splitlines()[1:]
    bank = image(parts, held)
    table.same("the medium after the day of a county", medium.read_bytes(), bank * 2 + OPEN_GATES)
    table.row("the audit of a county", [str(medium), path, "audit"], OK, output=b"canonical %d\n" % len(held))
    room.opinion("the medium of a county", medium.read_bytes(), path)
    told = text(*tally(parts, held), f"export {len(held)}", *held)
    table.row("the night of a county", [str(medium), path, "session"], OK, b"tally\nexport\n", told)
    drawn = sample("8412", 10, exported(f"export {len(held)}\n" + "".join(line + "\n" for line in held)))
    table.row("a sample of a county", [str(medium), path, "sample", "8412", "10"], OK, output=text(*drawn))
    table.row("the export of a county, built", ["unused", path, "build"], OK, text(*reversed(held)), bank)
