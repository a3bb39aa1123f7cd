#!/usr/bin/env python3
"""Draws a medium for observers, as an SVG on standard output.

    draw_medium.py MEDIUM ELECTION [OTHER]

Each cell of both banks is a square at its place: empty, or filled by a ballot that stands in its home or behind it.
Homes, the cells behind them, banks and gates are marked. With OTHER, a medium of the same election, both are drawn one
below the other, and what differs has a red frame. Of a large medium a square stands for several cells in a row, and
is the darker the more of them are filled. No number and no mark of a ballot is shown.
Statuses and their texts are those of check_medium.py; a medium that is only not canonical is drawn, and the picture
says so. It needs Python 3.10 or later, both versions of the format, and nothing else.
"""
import html
import sys
from pathlib import Path
from typing import NamedTuple

from check_medium import LONGEST_ELECTION, OPEN_GATE, Finding, is_valid, judge, parse_election, read

MOST_SQUARES = 2048  # of a bank
WIDTHS = ((64, 16, 24), (512, 32, 16), (MOST_SQUARES + 1, 64, 9))  # up to how many squares, columns, side
MARGIN, AXIS, LINE = 24, 46, 20
STYLE = """\
text{font:13px "DejaVu Sans",Verdana,Arial,sans-serif;fill:#222}.title{font-size:17px;font-weight:bold}
.axis{font-size:10px;fill:#555;text-anchor:end}.gate{fill:#3a8a4d}.shut{fill:#fff;stroke:#444}.header{fill:#cdbd94}
.differs{fill:none;stroke:#d0021b}"""
COLOURS = {"empty": "#eceef1", "home": "#1f4e96", "behind": "#8fb0dd", "one": "#c3d4ec", "two": "#8fb0dd",
           "three": "#4f7fc0", "none": "#444"}
SHADES = ("one", "two", "three", "home")  # of a square of several cells: up to a quarter is filled, up to a half, ..
LEGENDS = {
    False: (("empty", "empty cell"), ("home", "ballot in its home"), ("behind", "ballot behind its home"),
            ("none", "no ballot of this election")),
    True: (("empty", "no ballot"), ("one", "up to a quarter filled"), ("two", "a half"), ("three", "three quarters"),
           ("home", "more"), ("none", "with no ballot of this election")),
}


class Plan(NamedTuple):
    """How a bank is drawn: how many cells a square stands for, columns, the side of a square."""

    homes: int
    cells: int
    band: int
    columns: int
    side: int

    def width(self):
        return AXIS + self.columns * self.side

    def blocks(self):
        """The homes, and the cells behind them: the first cell of each and the one behind its last."""
        return (("homes", 0, self.homes), ("behind the homes", self.homes, self.cells))

    def rows(self, first, end):
        return -(-(end - first) // (self.band * self.columns))

    def height(self):
        return sum(LINE + self.rows(first, end) * self.side + 8 for _, first, end in self.blocks())


def plan_of(election):
    homes, cells, band = 2**election.bits, election.cell_count(), 1
    while -(-homes // band) - (-(cells - homes) // band) > MOST_SQUARES:
        band *= 2
    squares = -(-cells // band)
    columns, side = next((columns, side) for most, columns, side in WIDTHS if squares <= most)
    return Plan(homes, cells, band, columns, side)


class Bank:
    """The bytes of a bank: its header, and its cells."""

    def __init__(self, election, data):
        self.election, self.start = election, len(election.header())
        self.size, self.format = election.cell_format().size, election.cell_format()
        self.header, self.data = data[: self.start], data

    def cell(self, place):
        first = self.start + place * self.size
        return self.data[first : first + self.size]

    def kind(self, place):
        """What a cell holds."""
        cell = self.cell(place)
        if not any(cell):
            return "empty"
        ballot = self.format.unpack(cell)
        if not is_valid(self.election, ballot):
            return "none"
        return "home" if self.election.home(ballot[0]) == place else "behind"

    def shade(self, first, end):
        """The class of the square of these cells."""
        kinds = [self.kind(place) for place in range(first, end)]
        if len(kinds) == 1 or "none" in kinds:
            return kinds[0] if len(kinds) == 1 else "none"
        filled = len(kinds) - kinds.count("empty")
        return SHADES[-(-4 * filled // len(kinds)) - 1] if filled else "empty"


class Medium(NamedTuple):
    name: str
    banks: list
    gates: bytes
    told: str

    def same(self, other, bank, first, end):
        """Whether cells of a bank are those of another medium."""
        mine, others = self.banks[bank], other.banks[bank]
        places = slice(mine.start + first * mine.size, mine.start + end * mine.size)
        return mine.data[places] == others.data[places]


def medium_of(path, election):
    """The medium of a file; a Finding where it has another size."""
    size = election.image_size()
    try:
        data = read(path, 2 * size + 2)
    except FileNotFoundError:
        raise Finding(9, "no store")
    except OSError:
        raise Finding(5, "disk fault")
    if len(data) != 2 * size + 2:
        raise Finding(9, "no store")
    try:
        told = f"canonical {judge(election, data)}"
    except Finding as finding:
        told = finding.args[1]
    shown = "".join(it if it.isprintable() else "?" for it in Path(path).name)
    return Medium(shown, [Bank(election, data[:size]), Bank(election, data[size:-2])], data[-2:], told)


def style():
    """The styles; a colour fills what is drawn as a shape, and is the line of what is drawn as a broken line."""
    return STYLE + "".join(f"\n.{kind}{{fill:{colour};stroke:{colour}}}" for kind, colour in COLOURS.items())


def text(x, y, words, kind=""):
    return f'<text x="{x}" y="{y}"{kind and f" class={chr(34)}{kind}{chr(34)}"}>{html.escape(words)}</text>'


def rectangle(x, y, width, height, kind):
    return f'<rect x="{x}" y="{y}" width="{width}" height="{height}" class="{kind}"/>'


def runs(plan, x, y, first, end, kind_of):
    """Squares of one kind in a row of a block: the kind, where the first is, and how many. Others are left."""
    last = None
    for at, cell in enumerate(range(first, end, plan.band)):
        kind = kind_of(cell, min(cell + plan.band, end))
        row, column = divmod(at, plan.columns)
        if last and last[0] == kind and column:
            last[3] += 1
            continue
        if last and last[0]:
            yield last
        last = [kind, x + column * plan.side, y + row * plan.side, 1]
    if last and last[0]:
        yield last


def squares(plan, x, y, first, end, kind_of):
    """A path for each kind of square in a block. A run of filled squares is a broken line, as wide as they are high."""
    side, paths = plan.side - 1, {}
    for kind, left, top, count in runs(plan, x, y, first, end, kind_of):
        if kind == "differs":
            frame = f"h{side}v{side}h-{side}z"
            line = f"M{left} {top}{frame}" + f"m{plan.side} 0{frame}" * (count - 1)
        else:
            line = f"M{left} {top + side / 2:g}h{count * plan.side - 1}"
        paths.setdefault(kind, []).append(line)
    for kind, lines in paths.items():
        width = (2 if side > 10 else 1) if kind == "differs" else f'{side}" stroke-dasharray="{side} 1'
        yield f'<path class="{kind}" stroke-width="{width}" d="'
        yield from ("".join(lines[at : at + 8]) for at in range(0, len(lines), 8))
        yield '"/>'


def block(plan, x, y, name, first, end, layers):
    """A block of cells with its heading and, at the left of its rows, the first cell of each."""
    yield text(x + AXIS, y + 14, f"{name}: cells {first} to {end - 1}")
    y += LINE
    each = 1 if plan.side > 12 else 4
    for row in range(0, plan.rows(first, end), each):
        place = first + row * plan.columns * plan.band
        yield text(x + AXIS - 6, y + row * plan.side + plan.side // 2 + 4, str(place), "axis")
    for kind_of in layers:
        yield from squares(plan, x + AXIS, y, first, end, kind_of)


def bank_drawing(plan, x, y, medium, at, other):
    """A bank: its header and its gate, and below them the homes and the cells behind them."""
    bank, letter, is_open = medium.banks[at], "AB"[at], medium.gates[at] == OPEN_GATE
    left = x + AXIS
    yield text(left, y + 13, f"bank {letter}")
    yield rectangle(left + 60, y + 2, 60, 13, "header")
    yield text(left + 126, y + 13, "header")
    yield rectangle(left + 200, y + 2, 13, 13, "gate" if is_open else "shut")
    yield text(left + 220, y + 13, f"gate {letter} {'open' if is_open else 'closed'}")
    layers = [lambda first, end: bank.shade(first, end)]
    if other:
        if bank.header != other.banks[at].header:
            yield rectangle(left + 60, y + 2, 60, 13, "differs")
        if medium.gates[at] != other.gates[at]:
            yield rectangle(left + 200, y + 2, 13, 13, "differs")
        layers.append(lambda first, end: None if medium.same(other, at, first, end) else "differs")
    y += LINE + 4
    for name, first, end in plan.blocks():
        yield from block(plan, x, y, name, first, end, layers)
        y += LINE + plan.rows(first, end) * plan.side + 8


def comparison(media):
    """What a picture of two media says of them."""
    places = range(media[0].banks[0].election.cell_count())
    one, other = media
    cells = [(bank, place) for bank in (0, 1) for place in places if not one.same(other, bank, place, place + 1)]
    pairs = [[it.banks[bank].cell(place) for it in media] for bank, place in cells]
    pairs += [[it.banks[bank].header for it in media] for bank in (0, 1)] + [[it.gates for it in media]]
    count = sum(a != b for pair in pairs for a, b in zip(*pair))
    return f"Bytes that differ: {count:,}. Cells in which any does: {len(cells):,}." if count else "No byte differs."


def legend(plan, y, is_comparison):
    x = MARGIN + AXIS
    more = [("differs", "differs")] if is_comparison else []
    for kind, words in [*LEGENDS[plan.band > 1], *more]:
        yield rectangle(x, y, 13, 13, kind)
        yield text(x + 19, y + 11, words)
        x += 50 + round(7.6 * len(words))
    if plan.band > 1:
        yield text(MARGIN + AXIS, y + 32, f"A square stands for {plan.band} cells.")


def drawing(election, media):
    """The lines of the picture of one or two media."""
    plan = plan_of(election)
    width = max(2 * plan.width() + 3 * MARGIN, 860)
    y, body = MARGIN + 12, []
    for medium, other in zip(media, [*media[1:], media[0]]):
        body.append(text(MARGIN + AXIS, y, f"{medium.name}: {medium.told}", "title"))
        for at, x in enumerate((MARGIN, 2 * MARGIN + plan.width())):
            body += bank_drawing(plan, x, y + 14, medium, at, other if len(media) == 2 else None)
        y += 14 + LINE + 4 + plan.height() + MARGIN
    if len(media) == 2:
        body.append(text(MARGIN + AXIS, y, comparison(media), "title"))
        y += MARGIN
    body += legend(plan, y, len(media) == 2)
    height = y + 13 + MARGIN + (LINE if plan.band > 1 else 0)
    names = " and ".join(it.name for it in media)
    yield (f'<svg xmlns="http://www.w3.org/2000/svg" width="{width}" height="{height}" viewBox="0 0 {width} {height}"'
           ' role="img">')
    yield f"<title>Cells of {html.escape(names)}</title>"
    yield "<!-- Drawn by tools/draw_medium.py of the ballot store. -->"
    yield f"<style>{style()}</style>"
    yield f'<rect width="{width}" height="{height}" fill="#fff"/>'
    yield from body
    yield "</svg>"


def draw(words):
    if len(words) not in (2, 3) or any(word == "" or word.startswith("-") for word in words):
        raise Finding(2, "usage")
    medium, path, *others = words
    try:
        given = read(path, LONGEST_ELECTION)
    except OSError:
        raise Finding(6, "election read fault")
    if len(given) > LONGEST_ELECTION:
        raise Finding(4, "election too long")
    try:
        election = parse_election(given)
    except ValueError:
        raise Finding(3, "bad election")
    return drawing(election, [medium_of(it, election) for it in (medium, *others)])


if __name__ == "__main__":
    try:
        print("\n".join(draw(sys.argv[1:])))
    except Finding as finding:
        print(f"draw_medium.py: {finding.args[1]}", file=sys.stderr)
        sys.exit(finding.args[0])
