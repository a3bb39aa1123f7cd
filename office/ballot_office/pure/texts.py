"""Names and titles: what a text of one line may hold, and which of them a reader takes for each other."""

import unicodedata

from confusable_homoglyphs import categories, confusables  # type: ignore[import]

from ballot_office.pure.problems import Place, Problem, problem

MOST_LETTERS = 200
# Characters that turn the direction of what follows: with them a page shows another name than the file holds.
TURNING = frozenset("\u202a\u202b\u202c\u202d\u202e\u2066\u2067\u2068\u2069")


def text_problems(text: str, place: Place) -> list[Problem]:
    """What is wrong with a text that has to be a name or a title."""
    found = []
    bad = [
        c for c in text if c in TURNING or c == "\ufeff" or unicodedata.category(c) in ("Cc", "Cs", "Zl", "Zp", "Cn")
    ]
    if bad:
        found.append(problem("text-unseen", place, character=f"U+{ord(bad[0]):04X}"))
    if text.strip() != text:
        found.append(problem("text-spaces", place, text=text))
    if not text.strip():
        found.append(problem("text-missing", place, key="the text"))
    if unicodedata.normalize("NFC", text) != text:
        found.append(problem("text-not-composed", place, text=text))
    if len(text) > MOST_LETTERS:
        found.append(problem("text-long", place, count=len(text), most=MOST_LETTERS))
    return found


def folded(text: str) -> str:
    """What stays of a text without white space and case."""
    return "".join(unicodedata.normalize("NFC", text).casefold().split())


def look(text: str) -> str:
    """What a text looks like: each letter stands for all that are drawn as it is."""
    seen = (letter for letter in "".join(text.split()) if unicodedata.category(letter) != "Cf")
    return "".join(map(_look_of, seen)).casefold()


_LOOKS: dict[str, str] = {}


def _look_of(letter: str) -> str:
    """The least of the letters that are drawn as this one, or as one that is drawn as it."""
    if letter not in _LOOKS:
        alike, new = {letter}, [letter]
        while new:
            found = {it["c"] for it in confusables.confusables_data.get(new.pop(), []) if len(it["c"]) == 1} - alike
            alike |= found
            new += found
        _LOOKS.update((it, min(alike)) for it in alike)
    return _LOOKS[letter]


def mixed_word(text: str) -> str:
    """A word of the text that mixes alphabets by letters which look alike, or nothing."""
    for word in text.split():
        if confusables.is_mixed_script(word) and confusables.is_confusable(word, greedy=True):
            scripts = {categories.alias(letter) for letter in word} - {"COMMON", "INHERITED"}
            if scripts & {"LATIN", "CYRILLIC", "GREEK", "ARMENIAN", "CHEROKEE"} and len(scripts) > 1:
                return word
    return ""
