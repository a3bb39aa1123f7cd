#!/usr/bin/env python3
"""Tells what was measured: the table of docs/PERFORMANCE.md, and its two pictures.

    draw.py [--measured NAME.json ..] [--growth NAME.json] [--from MEASURED.json] [--into FOLDER]

NAME.json is what `measure.py --rows --out NAME` (in one run, or several of some groups each) and `growth.py --count
--out NAME.json` wrote; what the table and the pictures need of it is kept in measured.json beside this file (--from
names another one). From that alone come performance_ratios.svg and performance_growth.svg in FOLDER/pictures, FOLDER
being docs, and in FOLDER the parts of PERFORMANCE.md below its marks. The table is printed too; so is what that page's
reasons pass over, or need no longer tell.
"""
import argparse
import json
import re
from pathlib import Path

from pictures import growth_picture, ratio_picture
from rows import FASTER, ROWS

HERE = Path(__file__).resolve().parent


# ---- what is kept ----------------------------------------------------------
def kept_work(work, instructions):
    """Of one work, as far as it was measured: millions of instructions, milliseconds, MiB and new pages of the program
    and of its peer, the peer's ratios, and how many times as long SQLite takes."""
    both, kept = [work["programs"].get(name, {}) for name in ("BINARY", "rust-lockfree")], {}
    if all("median_ms" in one for one in both):
        kept = {"wall_ms": [round(one["median_ms"], 3) for one in both], "wall_ratio": round(both[1]["ratio"], 3),
                "cpu_ms": [round(one["cpu_ms"], 3) for one in both], "cpu_ratio": round(both[1]["cpu_ratio"], 3),
                "mib": [round(one["rss_mib"], 1) for one in both], "faults": [round(one["faults"]) for one in both]}
    if all(instructions.get(name) for name in ("BINARY", "rust-lockfree")):
        kept["instructions"] = [round(instructions[name] / 1e6, 3) for name in ("BINARY", "rust-lockfree")]
    sqlite = work["programs"].get("sqlite-wal", {})
    if "ratio" in sqlite:
        kept["sqlite"] = round(1 / sqlite["ratio"], 2)
    return kept


def keep_measured(kept, runs):
    """Keeps the works of the table from these runs; what is told of a run is told of the first."""
    kept["run"] = {name: runs[0][name] for name in ("date", "machine", "load", "rounds")}
    kept["run"].update(compared=sum(run["compared"] for run in runs), differ=sum(len(run["differ"]) for run in runs))
    works = {work["group"] + ": " + work["label"]: work for run in runs for work in run["works"]}
    counts = {name: found for run in runs for name, found in run["counts"].items()}
    kept["works"] = {}
    for name in (name for row in ROWS for name in row[2:] if name in works):
        found = counts.get(name, {"instructions": {}, "syscalls": {}})
        work = kept_work(works[name], found["instructions"])
        calls = [found["syscalls"].get(one) for one in ("BINARY", "rust-lockfree")]
        if work and all(calls):
            work["calls"] = [[one[call] for call in ("medium reads", "medium writes", "syncs")] for one in calls]
        if work:
            kept["works"][name] = work


def write_kept(path, kept):
    """One line for each work."""
    each = ",\n".join(json.dumps(name) + ": " + json.dumps(work) for name, work in kept["works"].items())
    growth = ",\n".join(json.dumps(work) for work in kept["growth"])
    path.write_text('{"run": %s,\n"works": {\n%s\n},\n"growth": [\n%s\n]}\n' % (json.dumps(kept["run"]), each, growth))


# ---- the table -------------------------------------------------------------
def figure(value):
    return "%.0f" % value if value >= 100 else "%.1f" % value if value >= 10 else "%.2f" % value


def marked(ratio, aim):
    """A ratio, in bold where it misses its aim."""
    return "%.2f" % ratio if round(ratio, 2) <= aim else "**%.2f**" % ratio


def ratios(work):
    """Its ratios in instructions and in processor time, as far as they were measured."""
    counts = work.get("instructions")
    return [counts and counts[0] / counts[1], work.get("cpu_ratio")]


def told(work, aim):
    """The four cells of a work: the program's instructions, the peer's, and both ratios."""
    if work is None:
        return ["", "", "", ""]
    by_counts, by_time = ratios(work)
    counts = [*map(figure, work["instructions"]), marked(by_counts, aim)] if by_counts else ["", "", ""]
    return counts + [marked(by_time, aim) if by_time else ""]


def misses(row, works):
    """Which of its ratios miss the aim: of 'instructions' and 'time', in version 1 and 2."""
    out = []
    for name, version in ((row.two, ""), (row.wide, " (version 2)")):
        if name in works:
            for ratio, what in zip(ratios(works[name]), ("instructions", "time")):
                if ratio and round(ratio, 2) > row.aim:
                    out.append("%s %.2f%s" % (what, ratio, version))
    return out


def met(row, works):
    """'yes', 'no', or that only times miss the aim."""
    which = misses(row, works)
    return "yes" if not which else "no" if any(one.startswith("instructions") for one in which) else "but time"


def beside_sqlite(row, works):
    faster = works.get(row.disk, {}).get("sqlite")
    if not faster:
        return ""
    return "%.0f" % faster if faster >= 10 else ("%.1f" if faster >= FASTER else "**%.1f**") % faster


def table(kept):
    works = kept["works"]
    head = ["Work", "Aim", "Program", "Peer", "Ratio", "Time", "Program, 2", "Peer", "Ratio", "Time", "Met", "SQLite"]
    lines = ["| " + " | ".join(head) + " |", "|---" * len(head) + "|"]
    for row in ROWS:
        cells = [row.label, "%.1f" % row.aim, *told(works.get(row.two), row.aim), *told(works.get(row.wide), row.aim)]
        lines.append("| " + " | ".join(cells + [met(row, works), beside_sqlite(row, works)]) + " |")
    return lines


# ---- the other parts of the page -------------------------------------------
def folded(text):
    """The text in lines of at most 120 columns."""
    lines, line = [], ""
    for word in text.split():
        if line and len(line) + 1 + len(word) > 120:
            lines.append(line)
            line = ""
        line += " " * bool(line) + word
    return lines + [line]


def run_told(kept):
    run, works = kept["run"], kept["works"]
    good = sum(not misses(row, works) for row in ROWS)
    calls = [work["calls"] for work in works.values() if "calls" in work]
    faster = [works[row.disk]["sqlite"] for row in ROWS if "sqlite" in works.get(row.disk, {})]
    machine, compared = re.sub(r"-x86_64[^,]*", "", run["machine"]), format(run["compared"], ",")
    text = "Measured on %s, %s, %d rounds, load %s at the start and %s at the end: " % (
        run["date"], machine, run["rounds"], *run["load"])
    text += "of %s outputs and media %s differ." % (compared, run["differ"] or "none")
    text += " %d of %d rows meet their aims in all that is told of them." % (good, len(ROWS))
    if calls:
        same = sum(mine == its for mine, its in calls)
        text += " In %d of the %d works whose system calls were counted" % (same, len(calls))
        text += " both read, write and sync the medium as often."
    if faster:
        text += " SQLite takes from %.1f to %.0f times as long, and in %d of %d rows at least %d times." % (
            min(faster), max(faster), sum(f >= FASTER for f in faster), len(faster), FASTER)
    return folded(text)


PEAKS = {"`build`, 32,768 lines", "`large`, 32,768, 16 tabulators", "`large`, 16 contests, 4 tabulators",
         "32,768 casts, 1 tabulator", "32,768 casts, 8 tabulators", "32,768 withdrawals, 1 tabulator",
         "200,000 finds, 4 tabulators", "`part`, 8 parts, 262,144 casts",
         "ten checkpoints of 8 casts", "`twin`, ten checkpoints of 8 casts", "ten tallies", "`merge` of 8 media"}


def memory_told(kept):
    """Peaks and fresh pages of some rows, as 'program/peer', those of version 2 second."""
    works, parts = kept["works"], []
    for row in ROWS:
        both = [works[name] for name in (row.two, row.wide) if "mib" in works.get(name, {})]
        if both and row.label in PEAKS:
            each = ["%.1f/%.1f (%s/%s)" % (*work["mib"], *(format(it, ",") for it in work["faults"])) for work in both]
            parts.append(row.label + " " + " and ".join(each))
    text = "Peaks in MiB (and pages that the system handed out afresh), program/peer, version 2 second: "
    return folded(text + "; ".join(parts) + ".")


def fill(page, kept):
    """Puts what was measured into the page: each part begins below its mark and ends with an empty line."""
    text = page.read_text()
    for name, lines in (("run", run_told(kept)), ("table", table(kept)), ("memory", memory_told(kept))):
        mark = re.compile(r"(<!-- measured: %s -->\n)(?:.+\n)*" % name)
        if not mark.search(text):
            print("%s has no mark for its %s" % (page, name))
        text = mark.sub(lambda found: found[1] + "\n".join(lines) + "\n", text)
    page.write_text(text)


def reasons(page, kept):
    """Tells which rows miss their aims that no reason of the page names, and which reasons name no such row."""
    section = page.read_text().split("## Why", 1)[-1].split("\n## ", 1)[0]
    given = [name for line in re.findall(r"^- \*\*.*", section, re.M) for name in re.findall(r"\*\*(.*?)\*\*", line)]
    missed = {row.label: misses(row, kept["works"]) for row in ROWS if misses(row, kept["works"])}
    for label, which in missed.items():
        unsaid = "" if any(name in label for name in given) else " NO REASON GIVEN"
        print("misses its aim: %s: %s%s" % (label, ", ".join(which), unsaid))
    for name in given:
        if not any(name in label for label in missed):
            print("a reason for nothing: " + name)


def main():
    wanted = argparse.ArgumentParser(description=__doc__, formatter_class=argparse.RawDescriptionHelpFormatter)
    wanted.add_argument("--measured", type=Path, nargs="+")
    wanted.add_argument("--growth", type=Path)
    wanted.add_argument("--from", dest="source", type=Path, default=HERE / "measured.json")
    wanted.add_argument("--into", type=Path, default=HERE.parent / "docs")
    given = wanted.parse_args()
    kept = json.loads(given.source.read_text()) if given.source.exists() else {"run": {}, "works": {}, "growth": []}
    if given.measured:
        keep_measured(kept, [json.loads(name.read_text()) for name in given.measured])
    if given.growth:
        kept["growth"] = json.loads(given.growth.read_text())["works"]
    if given.measured or given.growth:
        write_kept(given.source, kept)
    pictures = given.into / "pictures"
    pictures.mkdir(parents=True, exist_ok=True)
    pictures.joinpath("performance_ratios.svg").write_text(ratio_picture(ROWS, kept["works"]))
    pictures.joinpath("performance_growth.svg").write_text(growth_picture(kept["growth"]))
    print("\n".join(table(kept)))
    page = given.into / "PERFORMANCE.md"
    if page.exists():
        fill(page, kept)
        reasons(page, kept)


main()
