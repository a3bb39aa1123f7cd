"""The media of stores in parts for `check_program`, and what the second opinion says of them."""

import json
import subprocess
import sys
from pathlib import Path

from election_rows import opinion
from version_rows import OPEN_GATES, image

USAGE = (2, "usage")
SECOND_OPINION = Path(__file__).resolve().parent / "check_medium.py"
GREATEST = 2**64 - 1
COUNTS = (2, 4, 8)  # how many parts there may be


def part_of(count, number):
    """The part of a number where there are so many."""
    return number * count >> 64


def number_of(line):
    return int(line.split(" ")[0])


def shares(count, lines):
    """The record lines of each part."""
    return [[line for line in lines if part_of(count, number_of(line)) == part] for part in range(count)]


def medium_of(parts, lines):
    """The medium of the ballots of some record lines."""
    return image(parts, lines) * 2 + OPEN_GATES


def least(count, part):
    """The least number of a part."""
    return part * 2**64 // count or 1


def at_the_ends(count):
    """For each part the record lines of its least and its greatest number, under the example election."""
    return [[f"{least(count, part)} 1 -/-", f"{least(count, part + 1) - 1} 1 1/-"] for part in range(count)]


def part_of_further(index, status, line):
    """The refusal of a part, for what a medium alone is refused for."""
    if index == 0:
        return status, line
    return (17, f"{line} at medium {index}") if status == 5 else (20, f"medium {index} {line}")


class Opinions:
    """The files of the parts, and of the election that they are under."""

    def __init__(self, table, parts):
        self.table, self.parts = table, parts
        self.election = table.file("parted.json", json.dumps(parts).encode())

    def medium(self, *lines):
        return medium_of(self.parts, lines)

    def paths(self, media):
        return [self.table.file(f"opinion.part{index}", medium) for index, medium in enumerate(media)]

    def told(self, name, media, found):
        """Compares what the second opinion says of the media of these bytes."""
        first, *more = self.paths(media)
        self.table.same(f"a second opinion on {name}", opinion(first, self.election, *more), found)


def opinion_rows(table, examples):
    """Media that are the parts of one store, and others."""
    parts = json.loads((examples / "election.json").read_text())
    for version in (1, 2):
        opinions = Opinions(table, parts | {"version": version})
        for count in COUNTS:
            whole_rows(opinions, count)
            misplaced_rows(opinions, count)
            wrong_rows(opinions, count)
    typed_rows(Opinions(table, parts))


def whole_rows(opinions, count):
    """Parts of all sets: none, one in each, full ones, and sets that end where a part ends."""
    none = [opinions.medium()] * count
    opinions.told(f"{count} empty parts", none, 0)
    ends = [opinions.medium(*lines) for lines in at_the_ends(count)]
    opinions.told(f"{count} parts of their least and greatest numbers", ends, 2 * count)
    full = [opinions.medium(*(f"{least(count, part) + k} 1 -/-" for k in range(8))) for part in range(count)]
    opinions.told(f"{count} full parts", full, 8 * count)
    lines = [f"{k * 0x9E3779B97F4A7C15 % 2**64} 1 {k % 5 or '-'}/{k % 3 or '-'}" for k in range(1, 6)]
    drawn = [opinions.medium(*share) for share in shares(count, lines)]
    opinions.told(f"{count} parts of five ballots", drawn, 5)
    for part in range(count):
        alone = none[:part] + [ends[part]] + none[part + 1:]
        opinions.told(f"{count} parts with ballots in part {part}", alone, 2)


def misplaced_rows(opinions, count):
    """Parts with numbers of another part. The first such part is told, and its least such number."""
    ends = at_the_ends(count)
    whole = [opinions.medium(*lines) for lines in ends]
    for part in range(count):
        for other in (part - 1, part + 1):
            if 0 <= other < count:
                number = number_of(ends[other][other < part])  # the one beside this part
                media = whole[:part] + [opinions.medium(*ends[part], f"{number} 1 -/-")] + whole[part + 1:]
                opinions.told(f"part {part} of {count} with a number of part {other}", media, misplaced(part, number))
    first, last = opinions.medium(f"{GREATEST} 1 -/-"), opinions.medium("1 1 -/-", "9 1 1/-")
    opinions.told(f"the first and the last of {count} parts exchanged", [first, *whole[1:-1], last],
                  misplaced(0, GREATEST))
    opinions.told(f"two foreign numbers in the last of {count} parts", [*whole[:-1], last], misplaced(count - 1, 1))
    opinions.told(f"{count} parts of one medium", [opinions.medium("1 1 -/-")] * count, misplaced(1, 1))


def misplaced(part, number):
    return (23, f"medium {part} misplaced {number}")


def wrong_rows(opinions, count):
    """Media that are no store, and such as are not canonical: the first that is told, and what is told before what."""
    good, foreign = opinions.medium("1 1 1/-"), [opinions.medium("1 1 1/-", f"{GREATEST} 1 -/-")]
    whole = [good] + [opinions.medium()] * (count - 1)
    size = len(good)
    cell = next(place for place in range(16) if any(good[32 + place * width(size):][:width(size)]))
    style = 32 + cell * width(size) + 8
    wrong = {(9, "no store"): (b"", good[:-1], good + b"\0", good[:-2] + bytes(2)),
             (11, "other election"): (good[:31] + b"\1" + good[32:],),
             (10, f"damaged cell {cell}"): (good[:style] + b"\2" + good[style + 1:],)}
    for finding, media in wrong.items():
        for medium in media:
            for part in (0, 1, count - 1):
                beside = whole[:part] + [medium] + whole[part + 1:]
                opinions.told(f"part {part} of {count} of {len(medium)} bytes, {finding[1]}", beside,
                              part_of_further(part, *finding))
            opinions.told(f"the last of {count} parts behind a misplaced one", [*foreign, *whole[1:-1], medium],
                          part_of_further(count - 1, *finding))
    for part in range(count):
        torn = whole[:part] + [whole[part][:-1] + b"\0"] + whole[part + 1:]
        opinions.told(f"part {part} of {count} with its gate closed", torn, (14, f"medium {part} differs {size - 1}"))
        opinions.told(f"part {part} of {count} with its gate closed, and a misplaced one",
                      torn[:-1] + [good], misplaced(count - 1, 1))


def width(size):
    """The bytes of a cell under the example election, whose medium has so many."""
    return ((size - 2) // 2 - 32) // 16


def typed_rows(opinions):
    """The words, and what is written; files that are missing or are none."""
    table, election = opinions.table, opinions.election
    paths = opinions.paths([opinions.medium(*lines) for lines in at_the_ends(8)])
    for more in range(10):
        words = [paths[0], election, *(paths * 2)[1:1 + more]]
        if more not in (0, 1, 3, 7):
            table.same(f"a second opinion with {more} further media", opinion(*words), USAGE)
    for more in (paths[:1], [paths[1], paths[2], paths[1]], [paths[1], "", paths[2]], ["-"], ["--help"]):
        table.same(f"a second opinion with the words {more}", opinion(paths[0], election, *more), USAGE)
    for more, found in ((["none"], (20, "medium 1 no store")), ([str(table.room)], (17, "disk fault at medium 1")),
                        ([paths[1], "none", "other"], (20, "medium 2 no store"))):
        table.same(f"a second opinion with the files {more[-2:]}", opinion(paths[0], election, *more), found)
        table.same(f"a second opinion with {more[-1]} as its first file", opinion(more[-1], election, *paths[1:2]),
                   (5, "disk fault") if found[0] == 17 else (9, "no store"))
    table.same("a second opinion on parts under a medium", opinion(paths[0], paths[0], paths[1]), (3, "bad election"))
    table.same("a second opinion on parts under no file", opinion(paths[0], "none", paths[1]),
               (6, "election read fault"))
    foreign = b"medium 1 misplaced 2305843009213693952\n"
    for more, ending in ((paths[1:], (0, b"parts 16\n")), (paths[1:2], (23, foreign)), (paths[:1], (2, b"usage\n"))):
        done = subprocess.run([sys.executable, SECOND_OPINION, paths[0], election, *more], capture_output=True)
        table.same(f"what is written of {1 + len(more)} parts", (done.returncode, done.stdout), ending)
