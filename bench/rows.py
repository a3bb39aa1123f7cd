"""The rows of the table in docs/PERFORMANCE.md: which works stand in it, and what each may cost."""
from collections import namedtuple

# Beside `rust-lockfree` the instructions and the processor time of a row may be `aim` times the peer's. `two` is its
# work with two contests, or as the label says, `wide` that of version 2, `disk` the one whose wall time is told beside
# SQLite's.
Row = namedtuple("Row", "label aim two wide disk")
FASTER = 5  # times as long as the program SQLite should take


def large(label, bits, count, tabs, wide=None, disk=None):
    return Row("`large`, " + label, 1.1, "large: bits %d, %d records, %d tabs" % (bits, count, tabs), wide, disk)


ROWS = [
    Row("`init` of a small medium", 1.1, "start: init, new file", None, "disk: init, new file"),
    Row("`build`, 1,000 lines", 1.1, "build: 1000 lines", None, "disk: build, 1000 lines"),
    Row("`build`, 32,768 lines", 1.1, "build: 32768 lines", "wide: build of 32,768 lines", "disk: build, 32768 lines"),
    large("1,000, 1 tabulator", 16, 1000, 1, None, "large-disk: bits 16, 1000 records, 1 tabs"),
    large("32,768, 1 tabulator", 16, 32768, 1, "wide: large, 32,768 records, 1 tabs",
          "large-disk: bits 16, 32768 records, 1 tabs"),
    large("32,768, 4 tabulators", 16, 32768, 4, "wide: large, 32,768 records, 4 tabs"),
    large("32,768, 16 tabulators", 16, 32768, 16),
    large("2^15 homes, 16 tabulators", 15, 32768, 16),
    Row("`large`, 16 contests, 4 tabulators", 1.1, "contests: large, 32,768 records, 4 tabs", None, None),
    Row("32,768 casts, 1 tabulator", 1.1, "random: 32,768 casts, 1 tabs", "wide: session of 32,768 casts, 1 tabs",
        "disk: 32,768 casts, 1 tabs"),
    Row("32,768 casts, 8 tabulators", 1.1, "random: 32,768 casts, 8 tabs", "wide: session of 32,768 casts, 8 tabs",
        None),
    Row("32,768 withdrawals, 1 tabulator", 1.1, "withdraw: all 32,768, 1 tabs",
        "wide: withdrawals of all 32,768, 1 tabs", "disk: withdrawals of all 32,768, 1 tabs"),
    Row("200,000 finds, 4 tabulators", 1.1, "find: 4 tabs", "wide: finds, 4 tabs", "disk: finds, 4 tabs"),
    Row("`sample` of 1,000", 1.1, "sample: sample of 1,000", "wide: sample of 1,000", None),
    Row("`compare` of 1,000 lines", 1.1, "sample: compare of 1,000 lines", None, None),
    Row("`part`, 8 parts, 32,768 casts", 1.1, "part: 8 parts, 32,768 casts, 8 tabs",
        "wide: 8 parts, 32,768 casts, 8 tabs", None),
    Row("`part`, 8 parts, 262,144 casts", 1.1, "part: 8 parts, 262,144 casts, 64 tabs", None, None),
    Row("`replay`, 4,000 numbers", 1.1, "replay: 4,000 numbers, 4 tabs", None, None),
    Row("ten checkpoints of 8 casts", 1.0, "checkpoint: 10 checkpoints", "wide: 10 checkpoints",
        "checkpoint-disk: 10 checkpoints"),
    Row("`twin`, ten checkpoints of 8 casts", 1.0, "twin: twin, 10 checkpoints", "wide: twin, 10 checkpoints", None),
    Row("`audit`", 1.0, "audit: audit", "wide: audit", "audit-disk: audit"),
    Row("recovery, both banks whole", 1.0, "audit: session, empty script (clean)", "wide: session, empty script (clean)",
        "audit-disk: session, empty script (clean)"),
    Row("recovery, one bank torn", 1.0, "audit: session, empty script, bank B torn",
        "wide: session, empty script, bank B torn", None),
    Row("ten tallies", 1.0, "texts: ten tallies", "wide: ten tallies", "disk: ten tallies"),
    Row("one export", 1.0, "texts: one export", "wide: one export", "disk: one export"),
    Row("one export, 16 contests", 1.0, "contests: one export", None, None),
    Row("`merge` of 8 media", 1.0, "merge: 8 media", "wide: merge of 8 media", None),
    Row("`migrate`, two contests", 1.0, "migrate: two contests", None, None),
    Row("`migrate`, 16 contests", 1.0, "migrate: 16 contests of 32 choices", None, None),
]


def named():
    """The names of all works in the table."""
    return {name for row in ROWS for name in row[2:] if name}


def counted():
    """The names of those whose instructions are in it."""
    return {name for row in ROWS for name in (row.two, row.wide) if name}
