"""What docs/FORMATS.md says of ballots, media and sessions, in Python: for the tools that doubt the program.

It shares no line with the program or its peer. A ballot is the tuple of its number, its style and its mark sets; a set
is a dictionary from numbers to ballots. The reading of elections and of images is that of check_medium.py.
"""
import json
import re

from check_medium import OPEN_GATE, VERSIONS, Finding, is_valid, look, parse_election, place

LINE_WIDTH = 8192
NUMBER = rb"[1-9][0-9]{0,19}"
OPEN = re.compile(rb"open (cast|withdraw|find) ([1-9][0-9]?)\Z")
ITEM = re.compile(rb"(cast|withdraw|find) ([1-9][0-9]?) (.*)\Z", re.DOTALL)
RECORD = re.compile(rb"(" + NUMBER + rb") ([1-9][0-9]{0,2}) ([-0-9,/]+)\Z")
GROUP = re.compile(rb"-\Z|[1-9][0-9]?(,[1-9][0-9]?)*\Z")
PHASES = {b"cast": "casting", b"withdraw": "withdrawing", b"find": "finding"}
TEXTS = {9: "no store", 11: "other election"}
FAULT = "fault"  # in place of the bytes of a medium which the disk doesn't give
# how many media a command may have beside the first
FURTHER = {"merge": range(1, 9), "migrate": [1], "twin": [1], "part": [1, 3, 7]}


class Doubt(Exception):
    """What the rules do not allow, in words."""


def refusal(finding):
    """The status of a Finding, and the program's text for it."""
    status, line = finding.args
    return status, "ballot_store: " + TEXTS.get(status, line) + "\n"


def is_form(words):
    """Whether the words of a command over further media, as the program gets them, are its form."""
    more = words[3:]
    return (len(more) in FURTHER[words[2]] and all(word and word[0] != "-" for word in words[:3] + more)
            and len({words[0], *more}) == 1 + len(more))


def part_of(count, number):
    """The part of a number in a store of so many parts."""
    return number >> 65 - count.bit_length()


def shares(count, held):
    """The ballots of each part of a set."""
    return [{number: ballot for number, ballot in held.items() if part_of(count, number) == part}
            for part in range(count)]


def number_of(text):
    """A number of 64 bits that is not 0, or None."""
    return int(text) if re.fullmatch(NUMBER, text) and int(text) < 2**64 else None


class Rules:
    """An election, and what follows from it."""

    def __init__(self, text):
        self.election, self.parts = parse_election(text), json.loads(text)
        self.allowed = [contest["allowed"] for contest in self.parts["contests"]]

    def in_version_one(self):
        """The rules of this election, which is of version 2, in version 1; None where there is no such form."""
        try:
            old = Rules(json.dumps(self.parts | {"version": 1}).encode())
        except ValueError:
            return None
        return old if self.election.version == 2 else None

    def ballot(self, line):
        """The ballot of a record line; None where it is malformed, False where it is invalid."""
        match = RECORD.match(line)
        most_contests, most_choices, _ = VERSIONS[self.election.version]
        if not match or len(line) > LINE_WIDTH or int(match[1]) >= 2**64 or int(match[2]) > 255:
            return None
        groups = match[3].split(b"/")
        if len(groups) > most_contests or not all(map(GROUP.match, groups)):
            return None
        sets = []
        for group in groups:
            choices = [] if group == b"-" else [int(choice) for choice in group.split(b",")]
            if choices != sorted(set(choices)) or max(choices, default=0) > most_choices:
                return None
            sets.append(sum(1 << (choice - 1) for choice in choices))
        ballot = (int(match[1]), int(match[2]), *sets)
        return len(sets) == len(self.election.choices) and is_valid(self.election, ballot) and ballot

    def line(self, ballot):
        """The record line of a ballot."""
        groups = [",".join(str(c + 1) for c in range(64) if marks >> c & 1) or "-" for marks in ballot[2:]]
        return f"{ballot[0]} {ballot[1]} {'/'.join(groups)}".encode()

    def image(self, held):
        cells, layout = place(self.election, held.values()), self.election.cell_format()
        return self.election.header() + b"".join(layout.pack(*cell) for cell in cells)

    def medium(self, held):
        return self.image(held) * 2 + bytes([OPEN_GATE] * 2)

    def held(self, medium):
        """The set that these bytes hold; a Finding where they hold none. None is a missing file."""
        _, ballots = look(self.election, medium or b"")
        return {ballot[0]: ballot for ballot in ballots}

    def outcome(self, medium):
        """How a recovery of these bytes ends: a set, as the sorted ballots, or a status and its text."""
        try:
            return "held", tuple(sorted(self.held(medium).values()))
        except Finding as finding:
            return "refused", refusal(finding)

    def merge(self, target, more):
        """How a merge of these bytes ends: status, standard error and output, and the set that the target holds then;
        None where it gives no store, and stays as it was."""
        try:
            old = self.held(target)
        except Finding as finding:
            return (*refusal(finding), b""), None
        union, disputed = dict(old), set()
        for index, medium in enumerate(more, 1):
            if medium == FAULT:
                return (17, f"ballot_store: disk fault at medium {index}\n", b""), old
            try:
                held = self.held(medium)
            except Finding as finding:
                return (20, refusal(finding)[1].replace(": ", f": medium {index} ", 1), b""), old
            disputed |= {number for number in held if union.get(number, held[number]) != held[number]}
            union |= held
        if disputed:
            return (21, f"ballot_store: conflict {min(disputed)}\n", b""), old
        if len(union) > self.election.limit:
            return (22, f"ballot_store: merge of {len(union)}\n", b""), old
        return (0, "", b"merged %d\n" % len(union)), union

    def migrate(self, medium, target):
        """How a migration of these bytes ends: status, standard error and output, and the set that the target holds
        then; None where it stays as it was. The target is a FAULT where it cannot be written either."""
        old = self.in_version_one()
        if not old:
            return (16, "ballot_store: no version 1 form\n", b""), None
        try:
            held = old.held(medium)
        except Finding as finding:
            return (*refusal(finding), b""), None
        if target == FAULT:
            return (17, "ballot_store: disk fault at medium 1\n", b""), None
        size = 2 * self.election.image_size() + 2
        if target and len(target) > size:
            return (18, f"ballot_store: medium 1 wrong size {len(target)}\n", b""), None
        if target and len(target) == size and OPEN_GATE in target[-2:]:
            return (19, "ballot_store: medium 1 in use\n", b""), None
        return (0, "", b"migrated %d\n" % len(held)), held

    def looked_at(self, medium, index):
        """The set of one of two disks, None where the disk is lost, or a status and standard error; index 1 is the
        second disk."""
        if medium == FAULT:
            return (17, "ballot_store: disk fault at medium 1\n") if index else (5, "ballot_store: disk fault\n")
        where = ": medium 1 " if index else ": "
        if medium and len(medium) > 2 * self.election.image_size() + 2:
            return 18 if index else 13, f"ballot_store{where}wrong size {len(medium)}\n"
        try:
            return self.held(medium)
        except Finding as finding:
            status, error = refusal(finding)
            return None if status == 9 else (20 if index else status, error.replace(": ", where, 1))

    def pair(self, first, second, unmade=()):
        """How the pairing of two disks with these bytes ends: status and standard error, the line that it writes, and
        the set that both hold then; no set where they stay as they were. A disk is a FAULT where it gives nothing.
        Where it is lost and stands in `unmade`, as 0 or 1, its medium cannot be made; the other is recovered or not."""
        sets = []
        for index, medium in enumerate((first, second)):
            sets.append(self.looked_at(medium, index))
            if type(sets[index]) is tuple:
                return sets[index], b"", None
        if sets == [None, None]:
            return (9, "ballot_store: no store\n"), b"", None
        held = sets[0] if sets[0] is not None else sets[1]
        if None not in sets:
            return (0, ""), b"media equal\n" if sets[0] == sets[1] else b"media differed\n", held
        lost = sets.index(None)
        if lost in unmade:
            return self.looked_at(FAULT, lost), b"", held
        return (0, ""), b"media second-restored\n" if lost else b"media first-restored\n", held

    def opened(self, media):
        """How the opening of parts with these bytes ends: status and standard error, and the set that all hold; no set
        where they stay as they were. A part is a FAULT where its disk gives nothing."""
        sets = []
        for part, medium in enumerate(media):
            if medium == FAULT:
                return (17, f"ballot_store: disk fault at medium {part}\n") if part else self.looked_at(FAULT, 0), None
            try:
                sets.append(self.held(medium))
            except Finding as finding:
                status, error = refusal(finding)
                return (20, error.replace(": ", f": medium {part} ", 1)) if part else (status, error), None
        for part, held in enumerate(sets):
            foreign = [number for number in held if part_of(len(sets), number) != part]
            if foreign:
                return (23, f"ballot_store: medium {part} misplaced {min(foreign)}\n"), None
        return (0, ""), {number: ballot for held in sets for number, ballot in held.items()}

    def tally(self, held):
        lines = [f"tally {len(held)}"]
        for k, (choices, allowed) in enumerate(zip(self.election.choices, self.allowed)):
            with_it = [b[2 + k] for b in held.values() if k + 1 in self.election.styles[b[1] - 1]]
            fair = [marks for marks in with_it if marks.bit_count() <= allowed]
            under = sum(allowed - marks.bit_count() for marks in fair)
            lines.append(f"contest {k + 1} under {under} over {len(with_it) - len(fair)}")
            lines += [f"choice {k + 1} {c + 1} {sum(marks >> c & 1 for marks in fair)}" for c in range(choices)]
        return [line.encode() for line in lines]

    def export(self, held):
        return [b"export %d" % len(held)] + [self.line(held[number]) for number in sorted(held)]


def lines_of(script):
    """The lines of a script: bytes after the last line end are a line too."""
    lines = script.split(b"\n")
    return lines if lines[-1] else lines[:-1]


def cast(limit, held, lists, replies):
    """The set after a casting phase with these replies; a Doubt where they are no outcome."""
    accepted = [(item, i) for i, (items, words) in enumerate(zip(lists, replies))
                for item, word in zip(items, words) if word == b"accepted"]
    new = {item[0]: item for item, _ in accepted}
    if len(new) != len(accepted) or new.keys() & held.keys():
        raise Doubt("a number is accepted twice, or was held")
    new = held | new
    if len(new) > limit:
        raise Doubt("more ballots than the limit")
    winners = {item[0]: i for item, i in accepted}
    for i, (items, words) in enumerate(zip(lists, replies)):
        seen, full = set(), False
        for item, word in zip(items, words):
            if word == b"accepted":
                fits = not full and item[0] not in seen and winners[item[0]] == i
            elif word == b"full":
                fits, full = item[0] not in new and len(new) == limit, True
            else:
                fits = item[0] in new and word == (b"duplicate" if new[item[0]] == item else b"conflict")
            if not fits:
                raise Doubt(f"list {i + 1}: {item[0]} {word.decode('latin-1')}")
            seen.add(item[0])
    return new


def cast_in_parts(count, limit, held, lists, replies):
    """The same in a store of so many parts: of each part by itself, over the items of its own numbers."""
    new = {}
    for part, share in enumerate(shares(count, held)):
        own = [[(item, word) for item, word in zip(items, words) if part_of(count, item[0]) == part]
               for items, words in zip(lists, replies)]
        new |= cast(limit, share, *([[pair[which] for pair in pairs] for pairs in own] for which in (0, 1)))
    return new


def withdraw(held, lists, replies):
    """The set after a withdrawing phase with these replies; a Doubt where they are no outcome."""
    done = [number for items, words in zip(lists, replies)
            for number, word in zip(items, words) if word == b"withdrawn"]
    if len(set(done)) != len(done) or not set(done) <= held.keys():
        raise Doubt("a number is withdrawn twice, or was not held")
    for i, (items, words) in enumerate(zip(lists, replies)):
        gone = set()
        for number, word in zip(items, words):
            if number not in held:
                fits = word == b"absent"
            else:
                fits = number in done and (word == b"gone" or word == b"withdrawn" and number not in gone)
                gone.add(number)
            if not fits:
                raise Doubt(f"list {i + 1}: {number} {word.decode('latin-1')}")
    return {number: ballot for number, ballot in held.items() if number not in done}


class Session:
    """Walks along a script and the replies to it, on a store in so many parts, and follows the choices that the replies
    made."""

    def __init__(self, rules, held, replies, parts=1):
        self.rules, self.held, self.replies, self.parts = rules, held, replies, parts
        self.at, self.phase, self.lists = 0, "closed", []
        self.checkpoints = []  # for each: where its reply ends in the replies, and the set

    def next(self):
        end = self.replies.find(b"\n", self.at)
        if end < 0:
            raise Doubt(f"the replies end at byte {self.at}")
        line, self.at = self.replies[self.at:end], end + 1
        return line

    def expect(self, *lines):
        for line in lines:
            found = self.next()
            if found != line:
                raise Doubt(f"{found.decode('latin-1')!r} instead of {line.decode('latin-1')!r}")

    def follow(self, script):
        for number, line in enumerate(lines_of(script), 1):
            refused = self.handle(line)
            if refused:
                self.expect(f"line {number} {refused}".encode())
        if self.phase != "closed":
            self.expect(f"dropped {self.phase}".encode())
        if self.at != len(self.replies):
            raise Doubt(f"more replies from byte {self.at} on")
        return self

    def handle(self, line):
        """Handles a line. Where it is refused, the words of the refusal."""
        opening, item = OPEN.match(line), ITEM.match(line)
        if len(line) > LINE_WIDTH:
            return "malformed"
        if opening and int(opening[2]) <= 64:
            return self.open(PHASES[opening[1]], int(opening[2]))
        if item and int(item[2]) <= 64:
            what = self.rules.ballot(item[3]) if item[1] == b"cast" else number_of(item[3])
            return "malformed" if what is None else self.wait(PHASES[item[1]], int(item[2]), what)
        if line not in (b"close", b"checkpoint", b"tally", b"export"):
            return "malformed"
        if (line == b"close") == (self.phase == "closed"):
            return "wrong-phase " + self.phase
        return getattr(self, line.decode())()

    def open(self, phase, tabs):
        if self.phase != "closed":
            return "wrong-phase " + self.phase
        self.phase, self.lists = phase, [[] for _ in range(tabs)]
        self.expect(f"{phase} {tabs}".encode())

    def wait(self, phase, tab, what):
        if self.phase != phase:
            return "wrong-phase " + self.phase
        if tab > len(self.lists) or what is False:
            return "invalid"
        self.lists[tab - 1].append(what)

    def close(self):
        replies = []
        for i, items in enumerate(self.lists, 1):
            lines = [self.next().split(b" ") for _ in items]
            for k, words in enumerate(lines, 1):
                if len(words) != 3 or words[:2] != [b"%d" % i, b"%d" % k]:
                    raise Doubt(f"the reply to item {k} of list {i}: {words}")
            replies.append([words[2] for words in lines])
        if self.phase == "casting":
            self.held = cast_in_parts(self.parts, self.rules.election.limit, self.held, self.lists, replies)
        elif self.phase == "withdrawing":
            self.held = withdraw(self.held, self.lists, replies)
        elif replies != [[b"present" if n in self.held else b"absent" for n in items] for items in self.lists]:
            raise Doubt("what is found is not what is held")
        self.phase = "closed"
        self.expect(b"closed %d" % len(self.held))

    def checkpoint(self):
        self.expect(b"checkpoint %d" % len(self.held))
        self.checkpoints.append((self.at, self.held))

    def tally(self):
        self.expect(*self.rules.tally(self.held))

    def export(self):
        self.expect(*self.rules.export(self.held))
