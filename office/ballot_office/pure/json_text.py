"""JSON as the store's program reads it, with the place of each value.

Python's own reader takes other texts: numbers beyond a float, halves of surrogate pairs, NaN, any depth. This one takes
exactly what docs/FORMATS.md takes, and says at which line and column a text is no JSON.
"""

import re
from dataclasses import dataclass
from typing import NoReturn, Union

MOST_DEEP = 127
SPACE = re.compile(r"[ \t\n\r]*")
NUMBER = re.compile(r"-?(?:0|[1-9][0-9]*)(?:\.[0-9]+)?(?:[eE][+-]?[0-9]+)?")
WHOLE = re.compile(r"0|[1-9][0-9]*")
PLAIN = re.compile(r'[^"\\\x00-\x1f]*')
HEX = re.compile(r"[0-9A-Fa-f]{4}")
ESCAPES = {'"': '"', "\\": "\\", "/": "/", "b": "\b", "f": "\f", "n": "\n", "r": "\r", "t": "\t"}
WORDS = {"true": True, "false": False, "null": None}


@dataclass(frozen=True)
class Number:
    """A number as it is written."""

    text: str

    def whole(self) -> int | None:
        """The number if it is whole, unsigned, of at most 64 bits, and written so."""
        if WHOLE.fullmatch(self.text) is None or len(self.text) > 20:
            return None
        value = int(self.text)
        return value if value < 2**64 else None


@dataclass(frozen=True)
class Value:
    """A JSON value, and where it begins in its text."""

    at: int
    held: Union[None, bool, str, Number, "list[Value]", "dict[str, Value]"]


class NoJson(Exception):
    """The text is no JSON, or none that the program takes: the place, what was found, and which rule."""

    def __init__(self, at: int, why: str):
        super().__init__(why)
        self.at, self.why = at, why


def read_json(text: str) -> Value:
    """The value of a text. Raises `NoJson`."""
    reader = Reader(text)
    value = reader.value(0)
    reader.space()
    if reader.at < len(text):
        reader.stop("something follows the end of the JSON value")
    return value


def line_and_column(text: str, at: int) -> tuple[int, int]:
    """The line and the column of a place in a text, counted from 1."""
    return text.count("\n", 0, at) + 1, at - text.rfind("\n", 0, at)


class Reader:
    """Reads a text from its beginning to its end."""

    def __init__(self, text: str):
        self.text, self.at = text, 0

    def stop(self, why: str) -> NoReturn:
        """Ends the reading at this place."""
        raise NoJson(self.at, why)

    def letter(self, further: int = 0) -> str:
        """The character here, or so many further on; nothing behind the end."""
        at = self.at + further
        return self.text[at] if at < len(self.text) else ""

    def space(self) -> str:
        """Skips white space, and looks at the character behind it."""
        found = SPACE.match(self.text, self.at)
        assert found is not None
        self.at = found.end()
        return self.letter()

    def value(self, depth: int) -> Value:
        """One value, with the white space in front of it."""
        first = self.space()
        at = self.at
        if first == '"':
            return Value(at, self.string())
        if first in ("[", "{") and first:
            if depth == MOST_DEEP:
                self.stop("arrays and objects stand more than 127 deep in each other")
            self.at += 1
            return Value(at, self.array(depth + 1) if first == "[" else self.object(depth + 1))
        for word, held in WORDS.items():
            if self.text.startswith(word, at):
                self.at += len(word)
                return Value(at, held)
        return Value(at, self.number())

    def number(self) -> Number:
        """A number that a 64-bit float can hold."""
        found = NUMBER.match(self.text, self.at)
        if found is None:
            self.stop("a value is expected here" if self.at < len(self.text) else "the text ends in the middle")
        if float(found[0]) in (float("inf"), float("-inf")):
            self.stop("the number rounds to no 64-bit float")
        self.at = found.end()
        return Number(found[0])

    def string(self) -> str:
        """A string, without its quotation marks."""
        parts = []
        self.at += 1
        while True:
            plain = PLAIN.match(self.text, self.at)
            assert plain is not None
            parts.append(plain[0])
            self.at = plain.end()
            stopped_by = self.letter()
            if stopped_by == '"':
                self.at += 1
                return "".join(parts)
            if stopped_by == "":
                self.stop("the text ends within a string")
            if stopped_by != "\\":
                self.stop("a string holds a control character")
            parts.append(self.escape())

    def escape(self) -> str:
        """A character that is written with a backslash."""
        letter = self.letter(1)
        if letter in ESCAPES:
            self.at += 2
            return ESCAPES[letter]
        if letter != "u":
            self.stop("a string has an escape that JSON does not know")
        first = self.unit()
        if 0xD800 <= first < 0xDC00 and self.text.startswith("\\u", self.at):
            second = self.unit()
            if 0xDC00 <= second < 0xE000:
                return chr(0x10000 + ((first - 0xD800) << 10) + (second - 0xDC00))
        if 0xD800 <= first < 0xE000:
            self.stop("a string has an escape for half a surrogate pair")
        return chr(first)

    def unit(self) -> int:
        """The four hexadecimal digits behind a backslash and a u."""
        found = HEX.match(self.text, self.at + 2)
        if found is None:
            self.stop("an escape needs four hexadecimal digits behind its u")
        self.at = found.end()
        return int(found[0], 16)

    def array(self, depth: int) -> list[Value]:
        """The values of an array, behind its bracket."""
        values: list[Value] = []
        if self.space() == "]":
            self.at += 1
            return values
        while True:
            values.append(self.value(depth))
            if self.next_of("]"):
                return values

    def object(self, depth: int) -> dict[str, Value]:
        """The members of an object, behind its brace. Of a key that stands twice the last value counts."""
        members: dict[str, Value] = {}
        if self.space() == "}":
            self.at += 1
            return members
        while True:
            if self.space() != '"':
                self.stop("a key in quotation marks is expected here")
            key = self.string()
            if self.space() != ":":
                self.stop("a colon is expected behind the key")
            self.at += 1
            members[key] = self.value(depth)
            if self.next_of("}"):
                return members

    def next_of(self, end: str) -> bool:
        """Reads a comma, or the end of an array or object: whether it was the end."""
        found = self.space()
        if found not in (",", end) or not found:
            self.stop(f"a comma or {end} is expected here")
        self.at += 1
        return found == end
