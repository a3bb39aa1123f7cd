"""What docs/ballot_store.1 says of the program: its version, and how each command is typed."""
import re
import shlex
from pathlib import Path

PAGE = Path(__file__).resolve().parent.parent / "docs/ballot_store.1"


def version():
    """The version of the program, which stands in the title line of the page and nowhere else."""
    return re.match(r'\.TH BALLOT_STORE 1 \S+ "ballot_store (\d+(?:\.\d+)+)"', PAGE.read_text())[1]


def forms():
    """The lines of the synopsis, as they are typed."""
    synopsis = re.search(r"^\.SH SYNOPSIS\n(.*?)^\.SH ", PAGE.read_text(), re.MULTILINE | re.DOTALL)[1]
    lines = [[]]
    for macro, *words in map(shlex.split, re.sub(r"\\(?:f.|&|(?=-))", "", synopsis).splitlines()):
        if macro == ".br":
            lines.append([])
        else:  # .RI and its kin join their words
            lines[-1].append(("" if len(macro) > 2 else " ").join(words))
    return [" ".join(line) for line in lines]


def commands():
    """The word of each command, in the order of the forms."""
    return [*dict.fromkeys(form.split()[3] for form in forms())]
