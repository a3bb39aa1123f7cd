"""The two pictures of docs/PERFORMANCE.md, as SVG text. `draw.py` calls it."""
import math
from xml.sax.saxutils import escape

WIDTH = 800
STYLE = """
text { font-family: system-ui, -apple-system, 'Segoe UI', 'DejaVu Sans', Arial, sans-serif; font-size: 12px; fill: #1f2328; }
.head { font-size: 15px; font-weight: 600; }
.small { font-size: 11px; fill: #59636e; }
.card { fill: #ffffff; stroke: #d1d9e0; }
.grid { stroke: #d1d9e0; stroke-width: 1; }
.aim { stroke: #1f2328; stroke-width: 1.5; stroke-dasharray: 5 3; }
.program { fill: #0969da; stroke: #0969da; }
.peer { fill: #9a6700; stroke: #9a6700; }
.above { fill: #cf222e; stroke: #cf222e; }
.line { fill: none; stroke-width: 2; }
.thin { fill: none; stroke-width: 1.5; stroke-dasharray: 3 2; }
.open { fill: none; stroke-width: 2; }
text.above { fill: #cf222e; stroke: none; }
"""
DARK = """
text { fill: #e6edf3; }
.small { fill: #9198a1; }
.card { fill: #0d1117; stroke: #3d444d; }
.grid { stroke: #3d444d; }
.aim { stroke: #e6edf3; }
.program { fill: #58a6ff; stroke: #58a6ff; }
.peer { fill: #d29922; stroke: #d29922; }
.above { fill: #ff7b72; stroke: #ff7b72; }
.line, .thin, .open { fill: none; }
text.above { fill: #ff7b72; stroke: none; }
"""


def text(x, y, words, anchor="start", kind=None):
    named = ' class="%s"' % kind if kind else ""
    words = escape(words.replace("2^15", "2\u00b9\u2075"))
    return '<text x="%.1f" y="%.1f" text-anchor="%s"%s>%s</text>' % (x, y, anchor, named, words)


def line(x1, y1, x2, y2, kind):
    return '<line x1="%.1f" y1="%.1f" x2="%.1f" y2="%.1f" class="%s"/>' % (x1, y1, x2, y2, kind)


def dot(x, y, kind, square=False, size=4.0):
    if square:
        return '<rect x="%.1f" y="%.1f" width="%.1f" height="%.1f" class="%s"/>' % (x - size, y - size, 2 * size, 2 * size, kind)
    return '<circle cx="%.1f" cy="%.1f" r="%.1f" class="%s"/>' % (x, y, size, kind)


def picture(height, told, parts):
    """The whole picture, on a ground of its own, light or dark as the reader's screen is."""
    head = '<svg xmlns="http://www.w3.org/2000/svg" viewBox="0 0 %d %d" width="%d" height="%d" role="img" aria-label="%s">'
    style = "<style>%s@media (prefers-color-scheme: dark) {%s}\n</style>" % (STYLE, DARK)
    card = '<rect x="0.5" y="0.5" width="%d" height="%d" rx="6" class="card"/>' % (WIDTH - 1, height - 1)
    return "\n".join([head % (WIDTH, height, WIDTH, height, escape(told)), style, card, *parts, "</svg>"]) + "\n"


# ---- ratios ----------------------------------------------------------------
LEFT, RIGHT, STEP = 262, 680, 20  # of the scale, and between rows


def ratio_of(works, name):
    counts = works.get(name, {}).get("instructions")
    return counts and counts[0] / counts[1]


def ratio_picture(rows, works):
    """Each row's instructions beside its peer's, with the aim of each as a line."""
    drawn = [(row, ratio_of(works, row.two), ratio_of(works, row.wide)) for row in rows]
    drawn = [one for one in drawn if one[1] or one[2]]
    every = [ratio for one in drawn for ratio in one[1:] if ratio] or [1.0]
    low, high = math.log(min(0.6, min(every) / 1.05)), math.log(max(1.6, max(every) * 1.05))
    place = lambda ratio: LEFT + (RIGHT - LEFT) * (math.log(ratio) - low) / (high - low)
    ticks = [tick for tick in (0.25, 0.33, 0.5, 0.67, 0.8, 1, 1.25, 1.5, 2, 2.5, 3, 4, 6) if low <= math.log(tick) <= high]
    parts = [text(16, 26, "Instructions of the program, beside those of the unverified peer", kind="head"),
             dot(20, 44, "program"), text(30, 48, "version 1"), dot(110, 44, "program", True), text(120, 48, "version 2"),
             dot(204, 44, "above"), dot(218, 44, "above", True), text(230, 48, "above its aim"),
             line(330, 44, 356, 44, "aim"), text(364, 48, "the aim; left of it the program meets it"),
             text(736, 48, "1", "end", "small"), text(784, 48, "2", "end", "small")]
    top, y, section = 62, 62, None
    body = []
    for row, *both in drawn:
        if row.aim != section:
            if section:
                body.append(line(place(section), top, place(section), y + 2, "aim"))
            section, top = row.aim, y + 8
            body.append(text(16, y + 20, "Aim: at most %.1f times" % row.aim, kind="small"))
            y += 26
        body += ratio_row(row, both, y, place)
        y += STEP
    if section:
        body.append(line(place(section), top, place(section), y + 2, "aim"))
    for tick in ticks:
        parts += [line(place(tick), 62, place(tick), y + 2, "grid"), text(place(tick), y + 18, "%g" % tick, "middle", "small")]
    told = "Ratio of instructions of the program and its unverified peer, for each row of the table"
    return picture(y + 32, told, parts + body)


def ratio_row(row, both, y, place):
    parts = [text(LEFT - 12, y + 14, row.label.replace("`", ""), "end")]
    for ratio, square, x in zip(both, (False, True), (736, 784)):
        if ratio:
            kind = "above" if round(ratio, 2) > row.aim else "program"
            parts.append(dot(place(ratio), y + 10, kind, square, 3.5 if square else 4.5))
            parts.append(text(x, y + 14, "%.2f" % ratio, "end", kind if kind == "above" else None))
    return parts


# ---- growth ----------------------------------------------------------------
COLUMNS, ROOM, HEIGHT, PLOT = 4, 190, 158, (44, 38, 176, 128)  # of a panel: its sides, and those of its scale
FIRST, LAST = 1_000, 32_768


def growth_picture(works):
    """A panel for each kind of work: instructions against ballots, both in logarithms, all on one scale."""
    every = [cost for work in works for name in ("program", "peer") for cost in work[name]] or [1.0]
    low, high = math.floor(math.log10(min(every))), math.ceil(math.log10(max(every)))
    parts = [text(16, 26, "How instructions grow with ballots", kind="head"),
             text(16, 46, "Millions of instructions (upwards) for so many ballots (to the right), both in logarithms. "
                  "The number is program / peer at the most ballots.", kind="small"),
             line(520, 21, 546, 21, "program line"), dot(533, 21, "program"), text(554, 25, "program"),
             line(640, 21, 666, 21, "peer thin"), dot(653, 21, "peer open"), text(674, 25, "unverified peer")]
    for i, work in enumerate(works):
        at = (20 + i % COLUMNS * ROOM, 56 + i // COLUMNS * HEIGHT)
        parts.append('<g transform="translate(%d %d)">' % at)
        parts += panel(work, low, high) + ["</g>"]
    height = 56 + (len(works) + COLUMNS - 1) // COLUMNS * HEIGHT + 8
    return picture(height, "Instructions of the program and its unverified peer against the number of ballots", parts)


def panel(work, low, high):
    left, top, right, bottom = PLOT
    across = lambda n: left + 9 + (right - left - 15) * math.log(n / FIRST) / math.log(LAST / FIRST)
    up = lambda cost: bottom - (bottom - top) * (math.log10(cost) - low) / (high - low)
    title, more = (work["work"].split(", ", 1) + [""])[:2]
    parts = [text(left, 14, title), text(left, 28, more, kind="small")]
    for decade in range(low, high + 1):
        parts += [line(left, up(10 ** decade), right, up(10 ** decade), "grid"),
                  text(left - 5, up(10 ** decade) + 4, "%g" % 10 ** decade, "end", "small")]
    for n in work["ballots"]:
        parts += [line(across(n), bottom, across(n), bottom + 4, "grid"),
                  text(across(n), bottom + 16, "%dk" % (n // 1000), "middle", "small")]
    for name, kind, mark in (("peer", "peer thin", "peer open"), ("program", "program line", "program")):
        points = [(across(n), up(cost)) for n, cost in zip(work["ballots"], work[name])]
        parts.append('<polyline points="%s" class="%s"/>' % (" ".join("%.1f,%.1f" % point for point in points), kind))
        parts += [dot(x, y, mark, size=4.5 if name == "peer" else 2.5) for x, y in points]
    last = work["program"][-1] / work["peer"][-1]
    parts.append(text(right + 12, 14, "%.2f" % last, "end"))
    return parts
