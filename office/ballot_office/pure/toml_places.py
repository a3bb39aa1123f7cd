"""Where each key of a TOML text stands. `tomllib` reads the values and tells no lines; this tells the lines alone.

It takes a text that `tomllib` has read without complaint, and so need not judge it.
"""

import re
import tomllib
from typing import Any

Path = tuple[str | int, ...]
# Strings and comments: what stands in them is no structure.
QUOTED = re.compile(r'"""(?:\\.|[^\\])*?"{3,5}|\'\'\'.*?\'{3,5}|"(?:\\.|[^"\\\n])*"|\'[^\'\n]*\'|#[^\n]*', re.DOTALL)
KEY_END = re.compile(r"[=\]]")


def places_of(text: str) -> dict[Path, int]:
    """For each key and each element of an array where it begins in the text."""
    finder = Finder(text)
    finder.document()
    return finder.found


def blanked(text: str) -> str:
    """The text with its comments as spaces, and its strings as letters; line ends stay."""

    def blank(match: re.Match[str]) -> str:
        with_what = " " if match[0].startswith("#") else "s"
        return re.sub(r"[^\n]", with_what, match[0]) if with_what == " " else with_what * len(match[0])

    return QUOTED.sub(blank, text)


def keys_of(written: str) -> list[str]:
    """The parts of a key as it is written, dotted or quoted."""
    parts: list[str] = []
    inner: Any = tomllib.loads(f"{written.strip()} = 0")
    while isinstance(inner, dict):
        key, inner = next(iter(inner.items()))
        parts.append(key)
    return parts


class Finder:
    """Goes through a text from its beginning to its end."""

    def __init__(self, text: str):
        self.text, self.blank, self.at = text, blanked(text), 0
        self.found: dict[Path, int] = {}
        self.counts: dict[Path, int] = {}

    def note(self, path: Path, at: int) -> None:
        """Notes where a part begins, and with it the parts that it is in."""
        for length in range(1, len(path) + 1):
            self.found.setdefault(path[:length], at)

    def skip(self, what: str) -> str:
        """Skips characters of these, and looks at the next one."""
        while self.at < len(self.blank) and self.blank[self.at] in what:
            self.at += 1
        return self.blank[self.at] if self.at < len(self.blank) else ""

    def document(self) -> None:
        """All lines: headers of tables, and keys with values."""
        table: Path = ()
        while first := self.skip(" \t\r\n"):
            if first == "[":
                table = self.header()
            else:
                self.pair(table)

    def header(self) -> Path:
        """A header of a table, or of one of several: the path of that table."""
        begin = self.at
        several = self.blank.startswith("[[", begin)
        end = self.blank.index("]", begin)
        written = self.text[begin:end].lstrip("[")
        path = self.resolved(keys_of(written), several)
        self.note(path, begin)
        self.at = end + 1 + several
        return path

    def resolved(self, keys: list[str], several: bool) -> Path:
        """The path of the keys, where a name of several tables means the last of them."""
        path: Path = ()
        for index, key in enumerate(keys):
            path += (key,)
            if several and index == len(keys) - 1:
                self.counts[path] = self.counts.get(path, 0) + 1
            if path in self.counts:
                path += (self.counts[path] - 1,)
        return path

    def pair(self, table: Path) -> None:
        """A key and its value."""
        begin = self.at
        end = self.blank.index("=", begin)
        path = table + tuple(keys_of(self.text[begin:end]))
        self.note(path, begin)
        self.at = end + 1
        self.value(path)

    def value(self, path: Path) -> None:
        """A value, and what is in it."""
        first = self.skip(" \t\r\n")
        if first == "[":
            self.items(path, "]")
        elif first == "{":
            self.items(path, "}")
        else:
            while self.at < len(self.blank) and self.blank[self.at] not in ",]}\n":
                self.at += 1

    def items(self, path: Path, end: str) -> None:
        """The elements of an array, or the pairs of a table in braces."""
        self.at += 1
        index = 0
        while self.skip(" \t\r\n,") != end:
            if end == "]":
                self.found.setdefault(path + (index,), self.at)
                self.value(path + (index,))
                index += 1
            else:
                self.pair(path)
        self.at += 1
