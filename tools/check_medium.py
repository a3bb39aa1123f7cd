#!/usr/bin/env python3
"""check_medium.py MEDIUM ELECTION [MORE ..]

A second opinion on the medium of a ballot store, written from docs/FORMATS.md alone. It writes one of
these lines, and ends with the status in front of it (and needs Python 3.10 or later):

     0  canonical N         the medium is to the byte that of the N ballots it holds
    14  differs P           byte P, counted from 0, is the first that differs from that medium
     9  no store            its size is not a medium's (a missing one has size 0), or neither gate is open
    11  other election      the header of the bank that is read is not this election's
    10  damaged cell C      no image begins with the cells 0 to C, and C is the least such
     2  usage   3  bad election   4  election too long   5  disk fault   6  election read fault

With 1, 3 or 7 media more it says whether all, in this order, are the parts of one store. The first medium is part 0:

     0  parts N                 each is to the byte that of the ballots it holds, N in all, and all are in their part
     5, 9, 10, 11               as above, of the first medium
    17  disk fault at medium I  and
    20  medium I no store, medium I other election, medium I damaged cell C      of the other ones
    23  medium I misplaced V    all hold a set; part I is the first with a number of another part, V its least such
    14  medium I differs P      none is misplaced; part I is the first that differs from the medium of its ballots
"""
import bisect
import itertools
import json
import re
import struct
import sys
from typing import NamedTuple

LONGEST_ELECTION = 1_048_576
OPEN_GATE = 0xA7
VERSIONS = {1: (16, 32, "I"), 2: (24, 64, "Q")}  # most contests, most choices, a mark set of 4 or of 8 bytes


class Finding(Exception):
    """A status and its line."""


class Election(NamedTuple):
    version: int
    choices: list  # of each contest, how many choices it has
    styles: list  # of each style, the numbers of its contests, from 1
    limit: int
    bits: int
    salt: int

    def header(self):
        return struct.pack(">8sHBBIQ8x", b"HIBSTORE", self.version, self.bits, len(self.choices), self.limit, self.salt)

    def cell_format(self):
        return struct.Struct(f">QB{len(self.choices)}{VERSIONS[self.version][2]}")  # number, style, mark sets

    def cell_count(self):
        return 2**self.bits + self.limit

    def image_size(self):
        return len(self.header()) + self.cell_count() * self.cell_format().size

    def home(self, number):
        return ((number ^ self.salt) * 0x9E3779B97F4A7C15 % 2**64) >> (64 - self.bits)


def require(condition, what):
    if not condition:
        raise ValueError(what)


def number(text):  # no election has one with a sign, a point, an exponent or ten digits: it becomes None
    require(abs(float(text)) < float("inf"), "beyond a 64-bit float")  # nor is NaN or Infinity JSON
    return int(text) if re.fullmatch("[0-9]{1,9}", text) else None


def last_of_each(pairs):  # of a key that stands twice the last value counts, and each has to be JSON
    json.dumps(pairs, ensure_ascii=False).encode("utf-8")  # ValueError at half a surrogate pair
    return dict(pairs)


JSON = json.JSONDecoder(object_pairs_hook=last_of_each, parse_int=number, parse_float=number, parse_constant=number)


def depth(text):
    """How deep the arrays and objects of a JSON text are nested."""
    marks = re.sub(r'"(?:[^"\\]|\\.)*"|[^][{}"]', "", text, flags=re.DOTALL)
    return max(itertools.accumulate(1 if mark in "[{" else -1 for mark in marks), default=0)


def members(value, *keys):
    require(type(value) is dict and value.keys() == set(keys), f"no object of {keys}")
    return [value[key] for key in keys]


def array(value, most):
    require(type(value) is list and 1 <= len(value) <= most, f"no array of 1 to {most}")
    return value


def whole(value, least, most):  # type() and not isinstance(), because True is an instance of int
    require(type(value) is int and least <= value <= most, f"no number from {least} to {most}")
    return value


def parse_election(text):
    """The election that these bytes describe; ValueError where they describe none."""
    text = text.decode("utf-8")
    require(depth(text) <= 127, "nested too deep")
    document = JSON.decode(text)
    require(type(document) is dict, "no object")
    version = whole(document.pop("version", 1), 1, 2)
    contests, styles, limit, bits, salt = members(document, "contests", "styles", "limit", "bits", "salt")
    most_contests, most_choices, _ = VERSIONS[version]
    choices = []
    for contest in array(contests, most_contests):
        choice_count, allowed = members(contest, "choices", "allowed")
        choices.append(whole(choice_count, 1, most_choices))
        whole(allowed, 1, choice_count)
    for style in array(styles, 255):
        numbers = [whole(contest, 1, len(choices)) for contest in array(style, len(choices))]
        require(numbers == sorted(set(numbers)), "not strictly ascending")
    require(type(salt) is str and re.fullmatch("[0-9a-f]{16}", salt), "no salt")
    return Election(version, choices, styles, whole(limit, 1, 32768), whole(bits, 0, 16), int(salt, 16))


def is_valid(election, ballot):
    number, style, *mark_sets = ballot
    if number == 0 or not 1 <= style <= len(election.styles):
        return False
    on_style = election.styles[style - 1]
    return all(marks < 2**choices if contest in on_style else marks == 0
               for contest, (choices, marks) in enumerate(zip(election.choices, mark_sets), 1))


def place(election, ballots):
    """The cells of the image of these ballots: the greatest number is placed first."""
    cells = [(0, 0) + (0,) * len(election.choices)] * election.cell_count()
    # Where to look for an empty cell: here, or further on, with no empty one between. (Cell by cell takes minutes.)
    look_at = list(range(len(cells)))
    for ballot in sorted(ballots, reverse=True):
        cell = election.home(ballot[0])
        while look_at[cell] != cell:
            look_at[cell] = look_at[look_at[cell]]
            cell = look_at[cell]
        cells[cell] = ballot
        look_at[cell] = cell + 1
    return cells


def begin_an_image(election, cells):
    """Whether an image begins with these cells: if any does, then that of just the ballots in them."""
    # For without the ballots behind them, each of theirs still finds the cells from its home up to its own filled.
    ballots = [cell for cell in cells if any(cell)]
    return (len(ballots) <= election.limit
            and len({number for number, *_ in ballots}) == len(ballots)
            and all(is_valid(election, ballot) for ballot in ballots)
            and place(election, ballots)[:len(cells)] == cells)


def look(election, medium):
    """The bank that is read, and the ballots in it; a Finding where it is no image."""
    size, header = election.image_size(), election.header()
    if len(medium) != 2 * size + 2 or OPEN_GATE not in medium[-2:]:
        raise Finding(9, "no store")
    bank = medium[:size] if medium[-2] == OPEN_GATE else medium[size:-2]
    if bank[:len(header)] != header:
        raise Finding(11, "other election")
    cells = list(election.cell_format().iter_unpack(bank[len(header):]))
    if not begin_an_image(election, cells):  # then from some cell on no beginning does
        wrong = bisect.bisect_left(range(len(cells)), True, key=lambda c: not begin_an_image(election, cells[:c + 1]))
        raise Finding(10, f"damaged cell {wrong}")
    return bank, [cell for cell in cells if any(cell)]


def first_difference(medium, bank):
    """The first byte of the medium that is not that of the ballots of this bank; None where there is none."""
    pairs = enumerate(zip(medium, bank + bank + bytes([OPEN_GATE] * 2)))
    return next((position for position, (found, expected) in pairs if found != expected), None)


def judge(election, medium):
    """How many ballots the medium holds; a Finding where it is not just their medium."""
    bank, ballots = look(election, medium)
    position = first_difference(medium, bank)
    if position is not None:
        raise Finding(14, f"differs {position}")
    return len(ballots)


def judge_parts(election, paths):
    """How many ballots the media of these paths hold; a Finding where they are not the parts of one store."""
    shift, count, misplaced, differing = 65 - len(paths).bit_length(), 0, [], []
    for part, path in enumerate(paths):
        try:
            medium = read_medium(election, path)
            bank, ballots = look(election, medium)
        except Finding as finding:
            raise finding if part == 0 else of_further(part, *finding.args)
        foreign = [number for number, *_ in ballots if number >> shift != part]
        position = first_difference(medium, bank)
        misplaced += [Finding(23, f"medium {part} misplaced {min(foreign)}")] if foreign else []
        differing += [Finding(14, f"medium {part} differs {position}")] if position is not None else []
        count += len(ballots)
    for finding in misplaced + differing:
        raise finding
    return count


def of_further(index, status, line):
    """The same finding of a further medium."""
    return Finding(17, f"{line} at medium {index}") if status == 5 else Finding(20, f"medium {index} {line}")


def read(path, size):
    """The bytes of the file; where it has more than `size`, the first size + 1 of them."""
    with open(path, "rb") as file:
        return file.read(size + 1)


def read_medium(election, path):
    try:
        return read(path, 2 * election.image_size() + 2)
    except FileNotFoundError:
        raise Finding(9, "no store")
    except OSError:
        raise Finding(5, "disk fault")


def read_election(path):
    try:
        text = read(path, LONGEST_ELECTION)
        if len(text) > LONGEST_ELECTION:
            raise Finding(4, "election too long")
        return parse_election(text)
    except OSError:
        raise Finding(6, "election read fault")
    except ValueError:
        raise Finding(3, "bad election")


def check(words):
    if len(words) not in (2, 3, 5, 9) or any(word == "" or word.startswith("-") for word in words):
        raise Finding(2, "usage")
    medium_path, election_path, *more = words
    if len({medium_path, *more}) < 1 + len(more):
        raise Finding(2, "usage")
    election = read_election(election_path)
    if more:
        return judge_parts(election, [medium_path, *more])
    return judge(election, read_medium(election, medium_path))


if __name__ == "__main__":
    try:
        print("canonical" if len(sys.argv) < 4 else "parts", check(sys.argv[1:]))
    except Finding as finding:
        print(finding.args[1])
        sys.exit(finding.args[0])
