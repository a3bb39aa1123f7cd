"""Every rule that can fail, with its words and what to do. Nothing that goes wrong is told in other words."""

from typing import NamedTuple

ERROR, WARNING, NOTE = "error", "warning", "note"


class Rule(NamedTuple):
    """The words of a rule that fails, of what to do then, and how much it weighs."""

    rule: str
    remedy: str
    weight: str = ERROR


ANEW = "make the file anew, unless a store stands on it"
RULES: dict[str, Rule] = {
    # An election's file.
    "election-too-long": Rule(
        "the file has more than {most} bytes", "an election has at most so many: is it a medium?"
    ),
    "election-not-utf8": Rule("the byte {byte} is no UTF-8", "save the file as UTF-8"),
    "election-has-mark": Rule("a byte order mark stands in front", "save the file as UTF-8 without a byte order mark"),
    "no-json": Rule("this is no JSON: {why}", "correct it there, or make it from its book"),
    "election-no-object": Rule("the file holds no JSON object", "an election is one object in braces"),
    "election-key-missing": Rule("the key {missing} is missing", "the keys needed here are {keys}"),
    "election-key-unknown": Rule("the key {unknown} is not known", "take it away; the keys here are {keys}"),
    "election-no-whole-number": Rule(
        "{found} is no whole number", "write digits alone: no sign, point or quotation mark"
    ),
    "election-out-of-range": Rule("{found} is out of range", "write a number from {least} to {most}"),
    "election-no-array": Rule("{found} is no array", "write values in brackets, with commas between them"),
    "election-contest-count": Rule(
        "{count} contests; version {version} has 1 to {most}", "version 1 has at most 16, and version 2 at most 24"
    ),
    "election-no-contest": Rule("{found} is no contest", "a contest is an object with the keys choices and allowed"),
    "election-style-count": Rule("{count} styles", "an election has 1 to {most}"),
    "election-style-empty": Rule("the style has no contest", "write the number of each contest on it"),
    "election-style-order": Rule("{number} stands behind {before}", "write each contest's number once, ascending"),
    "election-salt": Rule("{found} is no salt", "write 16 digits from 0 to 9 and a to f, in quotation marks"),
    # An election's file beside its book.
    "version-differs": Rule("the book makes version {book}, and the file has version {file}", ANEW),
    "contests-differ": Rule("the book has {book} contests, and the file {file}", ANEW),
    "choices-differ": Rule("the book has {book} choices, and the file {file}", ANEW),
    "allowed-differ": Rule("allowed marks: {book} in the book, and {file} in the file", ANEW),
    "styles-differ": Rule("the book has {book} styles, and the file {file}", ANEW),
    "style-differs": Rule("the book has the contests {book} on it, and the file {file}", ANEW),
    # A text, a TOML file, a table.
    "text-not-utf8": Rule("the byte {byte} is no UTF-8", 'save the file as UTF-8 (in Excel: "CSV UTF-8")'),
    "no-toml": Rule("this is no TOML: {why}", "correct the text there"),
    "no-csv": Rule("this is no table: {why}", "save the sheet as CSV once more"),
    "table-empty": Rule("the table has no row under its headings", "save the sheet that has the rows"),
    "heading-missing": Rule("no column is headed {missing}", "the headings of this table are: {headings}"),
    "heading-unknown": Rule("the heading is not known", "the headings of this table are: {headings}"),
    "heading-twice": Rule("the heading stands twice", "leave one column with it"),
    "row-too-long": Rule("{count} cells under {headings} headings", "give each column a heading, or empty the cell"),
    "style-rows-differ": Rule("the style {id} has another {what} in row {first}", "write the same in each of its rows"),
    "expected-twice": Rule("the style {id} stands twice for the precinct {precinct}", "leave one of the rows"),
    "expected-alone": Rule("voters are expected, and no precinct is named", "name the precinct in the same row"),
    # A book.
    "key-unknown": Rule("the key {unknown} is not known", "the keys here are {keys}"),
    "no-text": Rule("{found} stands where a text belongs", "write a text in quotation marks"),
    "text-missing": Rule("{key} is missing or empty", "write it as on the sheet"),
    "text-unseen": Rule("the text holds a character that nobody sees, {character}", "type the text anew"),
    "text-spaces": Rule("white space stands in front of the text or behind it", "take it away"),
    "text-not-composed": Rule(
        "the letters are not composed (Unicode NFC)", "type the text anew, or import it from a table"
    ),
    "text-long": Rule("the text has {count} characters", "a name or title has at most {most}"),
    "bad-id": Rule("{id} is no id", "an id is a letter and then up to 31 letters, digits, points, - or _"),
    "id-twice": Rule("the id {id} is taken by {first}", "give each one an id of its own"),
    "number-missing": Rule("{key} is missing", "write a number"),
    "no-number": Rule("{found} is no whole number", "write digits alone"),
    "number-out-of-range": Rule("{found} is out of range", "write a number that is at least {least}"),
    "no-tables": Rule("{key} is not written as tables", "write each as in the example of the manual page"),
    "no-texts": Rule("{key} is no list of texts", "write texts in brackets, with commas between them"),
    "no-date": Rule("{found} is no date", "write the day of the election as 2026-11-03"),
    "no-language": Rule("{found} names no language", "write its code, as en or zh-Hant"),
    "no-kind": Rule("{found} is no kind of contest", "write candidates or measure"),
    "seats-of-measure": Rule("a measure fills no seats", "take the seats away, or make it candidates"),
    "threshold-of-candidates": Rule("candidates have no {key}", "take it away, or make the contest a measure"),
    "no-threshold": Rule("{found} is no threshold", "write it as: more than 1/2, or: at least 60%"),
    "no-threshold-of": Rule("{found} is not what a threshold is of", "write votes or ballots"),
    "no-yes-or-no": Rule("{found} is neither yes nor no", "say yes or no (in a book true or false)"),
    "contest-unknown": Rule("no contest has the id {id}", "the contests are {known}"),
    "contest-twice": Rule("the contest {id} stands twice on the style", "name it once"),
    "style-empty": Rule("the style has no contest", "name the contests on it"),
    "style-unknown": Rule("no style has the id {id}", "the styles are {known}"),
    "contest-count": Rule(
        "{count} contests; version 1 has {one} and version 2 has {two}", "an election has 1 to {two}"
    ),
    "style-count": Rule("{count} styles", "an election has 1 to {most}"),
    "choice-count": Rule("{count} choices; version 1 has {one} and version 2 has {two}", "a contest has 1 to {two}"),
    "contests-need-two": Rule(
        "{count} contests; version 1 has {one} and version 2 has {two}", "the election will be of version 2", NOTE
    ),
    "choices-need-two": Rule(
        "{count} choices; version 1 has {one} and version 2 has {two}", "the election will be of version 2", NOTE
    ),
    "allowed-above-choices": Rule("{allowed} votes are allowed, and there are {choices} choices", "allow fewer"),
    "seats-above-choices": Rule("{seats} seats, and {choices} choices", "name all choices, or fewer seats"),
    "measure-of-one": Rule("a measure has fewer than 2 choices", "name what can be marked, for and against"),
    "name-twice": Rule("the name {name} is also that of {first}", "add what tells them apart on the sheet"),
    "name-but-for-case": Rule(
        "{name} differs from {other} ({first}) by white space or case alone", "add what tells them apart on the sheet"
    ),
    "name-looks-like": Rule("{name} looks like {other} ({first})", "see whether both are meant", WARNING),
    "letters-mixed": Rule("{word} has letters of several alphabets that look alike", "type it anew", WARNING),
    "contest-on-no-style": Rule("the contest {id} is on no style", "see whether no sheet has it", WARNING),
    "styles-equal": Rule("the style {id} has the contests of {other}", "see whether one of them is enough", WARNING),
    "style-of-few": Rule(
        "{expected} voters of the style {style} are expected in {precinct}, fewer than {few}: whoever sees the votes "
        "of so few may know whose they are",
        "join the style with another one, or precincts",
        WARNING,
    ),
    # Sizes.
    "expected-missing": Rule(
        "nobody says how many ballots are expected", "say --expected N, or expected voters in the book"
    ),
    "expected-too-many": Rule(
        "{expected} ballots expected and a fifth more are {limit}, and a medium holds 32,768", "say --parts 2, 4 or 8"
    ),
    "bad-salt": Rule("{salt} is no salt", "throw 16 digits from 0 to 9 and a to f (a die of 16 faces, 16 times)"),
    "precinct-unknown": Rule("no precinct has the id {id}", "the precincts are: {known}"),
    # Numbers and names.
    "no-such-contest": Rule("{found} is no contest", "the contests are 1 to {count}, or their ids or titles"),
    "no-such-choice": Rule("{found} is no choice of {contest}", "its choices are 1 to {count}, or their ids or names"),
    "no-such-style": Rule("{found} is no style", "the styles are 1 to {count}, or their ids or names"),
    "not-one-name": Rule("{found} names several: {several}", "write its number"),
    "line-malformed": Rule("this is no record line: {line}", "a line is a number, a style and the marks, as: 9 1 1/-"),
    "line-groups": Rule("groups of marks: {found}; contests in the book: {count}", "is it of this election?"),
    "line-not-on-style": Rule("contest {contest} has a mark, and is not on style {style}", "is it of this election?"),
    "line-choice": Rule("contest {contest} has {count} choices, and {choice} is marked", "is it of this election?"),
    "mark-twice": Rule("{contest} is named twice", "name each contest once, with all its choices behind ="),
    "mark-malformed": Rule("{found} says no marks", "write a contest, =, and choices with commas, as: mayor=garcia"),
    "bad-number": Rule("{found} is no number of a ballot", "it is from 1 to 18446744073709551615, in digits alone"),
    "bad-check-digits": Rule("the check digits of {found} do not fit", "read the label and type it once more"),
    # Lists of numbers.
    "count-range": Rule("{count} numbers", "draw 1 to 1,000,000"),
    "labels-too-many": Rule("{count} labels; a page has at most {most}", "draw several lists, each with its page"),
    "list-empty": Rule("the list has no number", "is it the right file?"),
    "list-line": Rule("{found} is no number of a ballot", "draw the whole list again, with the observers"),
    "list-twice": Rule("the number stands in line {first} already", "draw the whole list again, with the observers"),
    "list-pattern": Rule("{pattern}: {detail}", "draw the whole list again, by the system's generator"),
    "not-a-list": Rule("the file is no list of numbers", "destroy it by hand if it is meant"),
    # Files and programs.
    "file-unread": Rule("the file cannot be read: {why}", "see its name and whether it is yours to read"),
    "file-too-long": Rule("the file has more than {most} bytes", "is it the right file?"),
    "file-exists": Rule("a file of this name is there, and is not overwritten", "choose a new name"),
    "file-unwritten": Rule("the file cannot be written: {why}", "see the folder, its rights and its room"),
    "file-undestroyed": Rule("the file cannot be destroyed: {why}", "see its name and whether it is yours"),
    "output-unwritten": Rule("the output could not be written: {why}", "type the command again"),
    "program-missing": Rule("no program ballot_store is found", "install ballot-store, or say --program FILE"),
    "program-unread": Rule("the program cannot be read: {why}", "install ballot-store again"),
    "program-not-served": Rule(
        "the program's SHA-256 is {sum}, and this ballot-office {serves}",
        "install both packages of one version, or say --program-sum {sum} if this is the witnesses' sum",
    ),
    "program-other-sum": Rule("the program's SHA-256 is {sum}, and not the one of --program-sum", "compare both"),
    "program-failed": Rule("the program ended with status {status}: {text}", "see docs/QUESTIONS.md"),
    "program-unrun": Rule("the program could not be run: {why}", "install ballot-store again"),
    "audit-refused": Rule(
        "an audit of this medium says: {text}", "see docs/QUESTIONS.md, and use no other file until then"
    ),
    "libraries-missing": Rule("these packages are missing: {packages}", "type: sudo apt install {packages}"),
    "stopped": Rule("the command was stopped", "type it again"),
    "bug": Rule("this is a fault of ballot-office, in {where}: {what}", "report it with what you typed (SECURITY.md)"),
}
