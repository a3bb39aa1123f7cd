"""Each error text, with the input that makes it.

ELECTIONS, BOOKS and TABLES have the name of the rule, (of TABLES which table,) the part of a good text that is changed,
what takes its place, and the sentence. COMMANDS have the rule, the status, words with | between them, and a line.
"""

from samples import GOOD_ELECTION


def more_contests(count: int) -> str:
    """So many more contests of a book."""
    one = '[[contests]]\nid = "x{0}"\ntitle = "X{0}"\nkind = "candidates"\nallowed = 1\n'
    one += 'choices = [{{ id = "a", name = "A" }}]\n'
    return "".join(one.format(at) for at in range(count))


def more_styles(count: int) -> str:
    """So many more styles of a book."""
    return "".join(f'[[styles]]\nid = "x{at}"\nname = "X{at}"\ncontests = ["mayor"]\n' for at in range(count))


def more_choices(count: int) -> str:
    """So many more choices of a book's contest."""
    return "".join(f'    {{ id = "n{at}", name = "N{at}" }},\n' for at in range(count))


def more_rows(count: int) -> str:
    """So many more rows of a table of choices."""
    return "".join(f"mayor,n{at},N{at},,\n" for at in range(count))


# fmt: off
ELECTIONS = [
    ("election-has-mark", '{"contests"', '\ufeff{"contests"',
     "e.json, line 1, column 1: a byte order mark stands in front; save the file as UTF-8 without a byte "
     "order mark"),
    ("no-json", '"limit":8,', '"limit":8',
     "e.json, line 1, column 93: this is no JSON: a comma or } is expected here; "
     "correct it there, or make it from its book"),
    ("no-json", '"limit":8,', '"limit":NaN,',
     "e.json, line 1, column 92: this is no JSON: a value is expected here; "
     "correct it there, or make it from its book"),
    ("no-json", '"limit":8,', '"limit":1e309,"limit":8,',
     "e.json, line 1, column 92: this is no JSON: the number rounds to no 64-bit float; "
     "correct it there, or make it from its book"),
    ("no-json", '"salt":"', '"salt":"\\ud800',
     "e.json, line 1, column 117: this is no JSON: a string has an escape for half a surrogate pair; "
     "correct it there, or make it from its book"),
    ("no-json", '"salt":"', '"salt":"\\x',
     "e.json, line 1, column 111: this is no JSON: a string has an escape that JSON does not know; "
     "correct it there, or make it from its book"),
    ("no-json", '"salt":"', '"salt":"\\u12g4',
     "e.json, line 1, column 111: this is no JSON: an escape needs four hexadecimal digits behind its u; "
     "correct it there, or make it from its book"),
    ("no-json", '"salt":"', '"salt":"\t',
     "e.json, line 1, column 111: this is no JSON: a string holds a control character; "
     "correct it there, or make it from its book"),
    ("no-json", '0"}', '0"}}',
     "e.json, line 1, column 129: this is no JSON: something follows the end of the JSON value; "
     "correct it there, or make it from its book"),
    ("no-json", '0"}', "0",
     "e.json, line 1, column 127: this is no JSON: the text ends within a string; "
     "correct it there, or make it from its book"),
    ("no-json", '"limit":8,', "limit:8,",
     "e.json, line 1, column 84: this is no JSON: a key in quotation marks is expected here; "
     "correct it there, or make it from its book"),
    ("no-json", '"limit":8,', '"limit"8,',
     "e.json, line 1, column 91: this is no JSON: a colon is expected behind the key; "
     "correct it there, or make it from its book"),
    ("no-json", '"limit":8,', '"limit":,',
     "e.json, line 1, column 92: this is no JSON: a value is expected here; "
     "correct it there, or make it from its book"),
    ("no-json", '"limit":8,"bits":3,"salt":"0000000000000000"}', '"limit":',
     "e.json, line 1, column 92: this is no JSON: the text ends in the middle; "
     "correct it there, or make it from its book"),
    ("no-json", '"limit":8', '"x":' + '[' * 128,
     "e.json, line 1, column 214: this is no JSON: arrays and objects stand more than 127 deep in each "
     "other; correct it there, or make it from its book"),
    ("election-no-object", GOOD_ELECTION, "[]",
     "e.json, line 1, column 1: the file holds no JSON object; an election is one object in braces"),
    ("election-key-missing", '"limit":8,', "",
     "e.json, line 1, column 1: the key limit is missing; the keys needed here are contests, styles, limit, "
     "bits, salt"),
    ("election-key-missing", '"choices":4,', "",
     "e.json, line 1, column 14, contest 1: the key choices is missing; the keys needed here are choices, "
     "allowed"),
    ("election-key-unknown", '"limit"', '"title":"A","limit"',
     "e.json, line 1, column 92: the key title is not known; take it away; the keys here are contests, "
     "styles, limit, bits, salt"),
    ("election-key-unknown", '"choices":4', '"name":"A","choices":4',
     "e.json, line 1, column 22, contest 1: the key name is not known; take it away; the keys here are "
     "choices, allowed"),
    ("election-no-whole-number", '"limit":8', '"limit":8.0',
     "e.json, line 1, column 92, limit: 8.0 is no whole number; write digits alone: no sign, point or "
     "quotation mark"),
    ("election-no-whole-number", '"limit":8', '"limit":"8"',
     'e.json, line 1, column 92, limit: "8" is no whole number; write digits alone: no sign, point or '
     "quotation mark"),
    ("election-no-whole-number", '"bits":3', '"bits":-0',
     "e.json, line 1, column 101, bits: -0 is no whole number; write digits alone: no sign, point or "
     "quotation mark"),
    ("election-no-whole-number", '"allowed":1', '"allowed":[1]',
     "e.json, line 1, column 37, contest 1, allowed: an array is no whole number; write digits alone: no "
     "sign, point or quotation mark"),
    ("election-out-of-range", '"limit":8', '"limit":32769',
     "e.json, line 1, column 92, limit: 32769 is out of range; write a number from 1 to 32,768"),
    ("election-out-of-range", '"allowed":2', '"allowed":4',
     "e.json, line 1, column 63, contest 2, allowed: 4 is out of range; write a number from 1 to 3"),
    ("election-out-of-range", "[[1,2]]", "[[1,3]]",
     "e.json, line 1, column 80, style 1: 3 is out of range; write a number from 1 to 2"),
    ("election-out-of-range", '"limit"', '"version":3,"limit"',
     "e.json, line 1, column 94, version: 3 is out of range; write a number from 1 to 2"),
    ("election-out-of-range", '"choices":4', '"choices":33',
     "e.json, line 1, column 25, contest 1, choices: 33 is out of range; write a number from 1 to 32"),
    ("election-no-array", '"styles":[[1,2]]', '"styles":{"a":1}',
     "e.json, line 1, column 76, styles: an object is no array; write values in brackets, with commas "
     "between them"),
    ("election-no-array", "[[1,2]]", "[1,2]",
     "e.json, line 1, column 77, style 1: 1 is no array; write values in brackets, with commas between them"),
    ("election-contest-count", '[{"choices":4,"allowed":1},{"choices":3,"allowed":2}]', "[]",
     "e.json, line 1, column 13, contests: 0 contests; version 1 has 1 to 16; version 1 has at most 16, and "
     "version 2 at most 24"),
    ("election-no-contest", '{"choices":4,"allowed":1}', "null",
     "e.json, line 1, column 14, contest 1: null is no contest; a contest is an object with the keys "
     "choices and allowed"),
    ("election-style-count", "[[1,2]]", "[]",
     "e.json, line 1, column 76, styles: 0 styles; an election has 1 to 255"),
    ("election-style-empty", "[[1,2]]", "[[]]",
     "e.json, line 1, column 77, style 1: the style has no contest; write the number of each contest on it"),
    ("election-style-order", "[[1,2]]", "[[2,1]]",
     "e.json, line 1, column 80, style 1: 1 stands behind 2; write each contest's number once, ascending"),
    ("election-style-order", "[[1,2]]", "[[1,1]]",
     "e.json, line 1, column 80, style 1: 1 stands behind 1; write each contest's number once, ascending"),
    ("election-salt", '"0000000000000000"', '"000000000000000A"',
     'e.json, line 1, column 110, salt: "000000000000000A" is no salt; write 16 digits from 0 to 9 and a to '
     "f, in quotation marks"),
    ("election-salt", '"0000000000000000"', "0",
     "e.json, line 1, column 110, salt: 0 is no salt; write 16 digits from 0 to 9 and a to f, in quotation "
     "marks"),
    ("version-differs", '"limit"', '"version":2,"limit"',
     "e.json, version: the book makes version 1, and the file has version 2; make the file anew, unless a "
     "store stands on it"),
    ("contests-differ", '{"choices":2,"allowed":1}', '{"choices":2,"allowed":1},{"choices":2,"allowed":1}',
     "e.json, contests: the book has 2 contests, and the file 3; make the file anew, unless a store stands "
     "on it"),
    ("choices-differ", '"choices":3', '"choices":4',
     "e.json, contest 1: the book has 3 choices, and the file 4; make the file anew, unless a store stands "
     "on it"),
    ("allowed-differ", '"allowed":1', '"allowed":2',
     "e.json, contest 1: allowed marks: 1 in the book, and 2 in the file; make the file anew, unless a "
     "store stands on it"),
    ("styles-differ", "[1,2],[1]", "[1,2]",
     "e.json, styles: the book has 2 styles, and the file 1; make the file anew, unless a store stands on "
     "it"),
    ("style-differs", "[1,2],[1]", "[2],[1]",
     "e.json, style 1: the book has the contests 1 2 on it, and the file 2; make the file anew, unless a "
     "store stands on it"),
]
BOOKS = [
    ("no-toml", "allowed = 1", "allowed = ",
     "b.toml, line 10, column 11: this is no TOML: Invalid value; correct the text there"),
    ("no-toml", 'title = "General election"', 'title = "General election',
     "b.toml, line 1, column 26: this is no TOML: Illegal character '\\n'; correct the text there"),
    ("key-unknown", "allowed = 1", "alowed = 1",
     "b.toml, line 10, column 1, contests 1, alowed: the key alowed is not known; the keys here are id, "
     "title, kind, allowed, seats, threshold, threshold_of, choices"),
    ("key-unknown", 'name = "Bo Lee"', 'name = "Bo Lee"\nage = 40',
     "b.toml, line 21, column 1, contests 1, choices 2, age: the key age is not known; the keys here are "
     "id, name, party, write_in"),
    ("no-text", 'title = "Mayor"', "title = 3",
     "b.toml, line 8, column 1, contests 1, title: a number stands where a text belongs; write a text in "
     "quotation marks"),
    ("no-text", 'id = "lee"', "id = 3",
     "b.toml, line 19, column 1, contests 1, choices 2, id: a number stands where a text belongs; write a "
     "text in quotation marks"),
    ("text-missing", 'name = "Bo Lee"', 'name = ""',
     "b.toml, line 20, column 1, contests 1, choices 2, name: name is missing or empty; write it as on the "
     "sheet"),
    ("text-missing", 'name = "Bo Lee"', 'name = " "',
     "b.toml, line 20, column 1, contests 1, choices 2, name: the text is missing or empty; write it as on "
     "the sheet"),
    ("text-missing", 'id = "lee"', "",
     "b.toml, line 18, column 1, contests 1, choices 2, id: id is missing or empty; write it as on the "
     "sheet"),
    ("text-unseen", "Bo Lee", "Bo \u202eLee",
     "b.toml, line 20, column 1, contests 1, choices 2, name: the text holds a character that nobody sees, "
     "U+202E; type the text anew"),
    ("text-unseen", "Bo Lee", "Bo\\nLee",
     "b.toml, line 20, column 1, contests 1, choices 2, name: the text holds a character that nobody sees, "
     "U+000A; type the text anew"),
    ("text-spaces", "Bo Lee", "Bo Lee ",
     "b.toml, line 20, column 1, contests 1, choices 2, name: white space stands in front of the text or "
     "behind it; take it away"),
    ("text-not-composed", "Ana García", "Ana Garci\u0301a",
     "b.toml, line 15, column 1, contests 1, choices 1, name: the letters are not composed (Unicode NFC); "
     "type the text anew, or import it from a table"),
    ("text-long", "Bo Lee", 'B' * 201,
     "b.toml, line 20, column 1, contests 1, choices 2, name: the text has 201 characters; a name or title "
     "has at most 200"),
    ("bad-id", '"lee"', '"2"',
     "b.toml, line 19, column 1, contests 1, choices 2, id: 2 is no id; an id is a letter and then up to 31 "
     "letters, digits, points, - or _"),
    ("id-twice", '"lee"', '"garcia"',
     "b.toml, line 19, column 1, contests 1, choices 2, id: the id garcia is taken by contests 1, choices "
     "1; give each one an id of its own"),
    ("number-missing", "allowed = 1\n", "",
     "b.toml, line 6, column 1, contests 1, allowed: allowed is missing; write a number"),
    ("no-number", "allowed = 1", "allowed = 1.5",
     "b.toml, line 10, column 1, contests 1, allowed: a number with a point is no whole number; write "
     "digits alone"),
    ("no-number", "allowed = 1", "allowed = true",
     "b.toml, line 10, column 1, contests 1, allowed: true or false is no whole number; write digits alone"),
    ("no-number", "allowed = 1", 'allowed = "one"',
     "b.toml, line 10, column 1, contests 1, allowed: one is no whole number; write digits alone"),
    ("number-out-of-range", "allowed = 1", "allowed = 0",
     "b.toml, line 10, column 1, contests 1, allowed: 0 is out of range; write a number that is at least 1"),
    ("no-tables", '    { id = "yes", name = "Yes" },', '    "Yes",',
     "b.toml, line 33, column 1, contests 2, choices: choices is not written as tables; write each as in "
     "the example of the manual page"),
    ("no-tables", "[precincts.expected]\nnorth = 900\nsouth = 1100", "expected = 5",
     "b.toml, line 52, column 1, precincts 1, expected: expected is not written as tables; write each as in "
     "the example of the manual page"),
    ("no-texts", 'contests = ["mayor"]', 'contests = "mayor"',
     "b.toml, line 46, column 1, styles 2, contests: contests is no list of texts; write texts in brackets, "
     "with commas between them"),
    ("no-date", "date = 2026-11-03", 'date = "soon"',
     "b.toml, line 3, column 1, date: soon is no date; write the day of the election as 2026-11-03"),
    ("no-date", "date = 2026-11-03\n", "",
     "b.toml, date: nothing is no date; write the day of the election as 2026-11-03"),
    ("no-language", '"es"', '"Spanish"',
     "b.toml, line 4, column 20, languages 2: Spanish names no language; write its code, as en or zh-Hant"),
    ("no-language", '"en", "es"', "",
     "b.toml, line 4, column 1, languages: an empty list names no language; write its code, as en or zh-Hant"),
    ("no-kind", '"candidates"', '"people"',
     "b.toml, line 9, column 1, contests 1, kind: people is no kind of contest; write candidates or measure"),
    ("seats-of-measure", 'threshold = "at least 60%"', 'seats = 1\nthreshold = "at least 60%"',
     "b.toml, line 31, column 1, contests 2, seats: a measure fills no seats; take the seats away, or make "
     "it candidates"),
    ("threshold-of-candidates", "seats = 1", 'seats = 1\nthreshold = "at least 60%"',
     "b.toml, line 12, column 1, contests 1, threshold: candidates have no threshold; take it away, or make "
     "the contest a measure"),
    ("no-threshold", '"at least 60%"', '"most"',
     "b.toml, line 31, column 1, contests 2, threshold: most is no threshold; write it as: more than 1/2, "
     "or: at least 60%"),
    ("no-threshold", '"at least 60%"', '"more than 100%"',
     "b.toml, line 31, column 1, contests 2, threshold: more than 100% is no threshold; write it as: more "
     "than 1/2, or: at least 60%"),
    ("no-threshold", '"at least 60%"', '"at least 3/2"',
     "b.toml, line 31, column 1, contests 2, threshold: at least 3/2 is no threshold; write it as: more "
     "than 1/2, or: at least 60%"),
    ("no-threshold-of", 'threshold_of = "votes"', 'threshold_of = "people"',
     "b.toml, line 32, column 1, contests 2, threshold_of: people is not what a threshold is of; write "
     "votes or ballots"),
    ("no-yes-or-no", "write_in = true", 'write_in = "yes"',
     "b.toml, line 25, column 1, contests 1, choices 3, write_in: yes is neither yes nor no; say yes or no "
     "(in a book true or false)"),
    ("contest-unknown", '["mayor", "bond"]', '["mayor", "bonds"]',
     "b.toml, line 41, column 22, styles 1, contests 2: no contest has the id bonds; the contests are "
     "mayor, bond"),
    ("contest-twice", '["mayor", "bond"]', '["mayor", "bond", "mayor"]',
     "b.toml, line 41, column 30, styles 1, contests 3: the contest mayor stands twice on the style; name "
     "it once"),
    ("style-empty", '["mayor", "bond"]', "[]",
     "b.toml, line 41, column 1, styles 1, contests: the style has no contest; name the contests on it"),
    ("style-unknown", "south = 1100", "souht = 1100",
     "b.toml, line 54, column 1, precincts 1, expected, souht: no style has the id souht; the styles are "
     "north, south"),
    ("contest-count", "[[styles]]", more_contests(23) + '[[styles]]',
     "b.toml, line 6, column 1, contests: 25 contests; version 1 has 16 and version 2 has 24; an election "
     "has 1 to 24"),
    ("contests-need-two", "[[styles]]", more_contests(15) + '[[styles]]',
     "b.toml, line 6, column 1, contests: note: 17 contests; version 1 has 16 and version 2 has 24; the "
     "election will be of version 2"),
    ("style-count", "[[precincts]]", more_styles(254) + '[[precincts]]',
     "b.toml, line 38, column 1, styles: 256 styles; an election has 1 to 255"),
    ("choice-count", '    { id = "no", name = "No" },', more_choices(64),
     "b.toml, line 33, column 1, contests 2, choices: 65 choices; version 1 has 32 and version 2 has 64; a "
     "contest has 1 to 64"),
    ("choices-need-two", '    { id = "no", name = "No" },', more_choices(34),
     "b.toml, line 33, column 1, contests 2, choices: note: 35 choices; version 1 has 32 and version 2 has "
     "64; the election will be of version 2"),
    ("allowed-above-choices", "allowed = 1", "allowed = 4",
     "b.toml, line 10, column 1, contests 1, allowed: 4 votes are allowed, and there are 3 choices; allow "
     "fewer"),
    ("seats-above-choices", "seats = 1", "seats = 4",
     "b.toml, line 11, column 1, contests 1, seats: 4 seats, and 3 choices; name all choices, or fewer "
     "seats"),
    ("measure-of-one", '    { id = "no", name = "No" },\n', "",
     "b.toml, line 33, column 1, contests 2, choices: a measure has fewer than 2 choices; name what can be "
     "marked, for and against"),
    ("name-twice", "Bo Lee", "Ana García",
     "b.toml, line 20, column 1, contests 1, choices 2, name: the name Ana García is also that of contests "
     "1, choices 1, name; add what tells them apart on the sheet"),
    ("name-but-for-case", "Bo Lee", "ANA garcía",
     "b.toml, line 20, column 1, contests 1, choices 2, name: ANA garcía differs from Ana García (contests "
     "1, choices 1, name) by white space or case alone; add what tells them apart on the sheet"),
    ("name-but-for-case", 'name = "South"', 'name = "Nor th"',
     "b.toml, line 45, column 1, styles 2, name: Nor th differs from North (styles 1, name) by white space "
     "or case alone; add what tells them apart on the sheet"),
    ("name-looks-like", '"Library bond"', '"M\u0430yor"',
     "b.toml, line 29, column 1, contests 2, title: warning: M\u0430yor looks like Mayor (contests 1, title); "
     "see whether both are meant"),
    ("letters-mixed", "Bo Lee", "Bo L\u0435e",
     "b.toml, line 20, column 1, contests 1, choices 2, name: warning: L\u0435e has letters of several alphabets "
     "that look alike; type it anew"),
    ("contest-on-no-style", '["mayor", "bond"]', '["mayor"]',
     "b.toml, line 28, column 1, contests 2, id: warning: the contest bond is on no style; see whether no "
     "sheet has it"),
    ("styles-equal", 'contests = ["mayor"]', 'contests = ["bond", "mayor"]',
     "b.toml, line 46, column 1, styles 2, contests: warning: the style south has the contests of north; "
     "see whether one of them is enough"),
    ("style-of-few", "south = 1100", "south = 9",
     "b.toml, line 54, column 1, precincts 1, expected, south: warning: 9 voters of the style south are "
     "expected in p1, fewer than 10: whoever sees the votes of so few may know whose they are; join the "
     "style with another one, or precincts"),
]
TABLES = [
    ("no-csv", 0, "Library bond", '"Library" bond',
     'contests.csv, row 3: this is no table: \',\' expected after \'"\'; save the sheet as CSV once more'),
    ("table-empty", 0, "mayor,Mayor,,1,1,,\nbond,Library bond,measure,1,,more than 1/2,ballots\n", "",
     "contests.csv: the table has no row under its headings; save the sheet that has the rows"),
    ("heading-missing", 1, "contest,choice", "contst,choice",
     "choices.csv, row 1: no column is headed contest; the headings of this table are: contest; choice; "
     "name; party; write in"),
    ("heading-unknown", 1, "party", "partei",
     "choices.csv, row 1, column partei: the heading is not known; the headings of this table are: contest; "
     "choice; name; party; write in"),
    ("heading-twice", 1, "party", "name",
     "choices.csv, row 1, column name: the heading stands twice; leave one column with it"),
    ("row-too-long", 1, "Bo Lee,,no", "Bo Lee,,no,17",
     "choices.csv, row 3: 6 cells under 5 headings; give each column a heading, or empty the cell"),
    ("style-rows-differ", 2, "south,South,mayor,p1,1100", "south,South,mayor,p1,1100\nsouth,Sud,,p2,10",
     "styles.csv, row 4, column name: the style south has another name in row 3; write the same in each of "
     "its rows"),
    ("expected-twice", 2, "south,South,mayor,p1,1100", "south,South,mayor,p1,1100\nsouth,,,p1,10",
     "styles.csv, row 4: the style south stands twice for the precinct p1; leave one of the rows"),
    ("expected-alone", 2, "mayor,p1,1100", "mayor,,1100",
     "styles.csv, row 3, column expected: voters are expected, and no precinct is named; name the precinct "
     "in the same row"),
    ("contest-unknown", 1, "bond,yes", "bnd,yes",
     "choices.csv, row 5, column contest: no contest has the id bnd; the contests are mayor, bond"),
    ("choice-count", 1, "bond,yes", more_rows(62) + "bond,yes",
     "contests.csv, row 2: 65 choices; version 1 has 32 and version 2 has 64; a contest has 1 to 64"),
    ("choices-need-two", 1, "bond,yes", more_rows(32) + "bond,yes",
     "contests.csv, row 2: note: 35 choices; version 1 has 32 and version 2 has 64; the election will be of "
     "version 2"),
    ("no-number", 0, ",1,1,", ",one,1,",
     "contests.csv, row 2, column votes allowed: one is no whole number; write digits alone"),
    ("number-missing", 0, ",1,1,", ",,1,",
     "contests.csv, row 2, column votes allowed: allowed is missing; write a number"),
    ("no-yes-or-no", 1, "Bo Lee,,no", "Bo Lee,,maybe",
     "choices.csv, row 3, column write-in: maybe is neither yes nor no; say yes or no (in a book true or "
     "false)"),
    ("allowed-above-choices", 0, ",1,1,", ",7,1,",
     "contests.csv, row 2, column votes allowed: 7 votes are allowed, and there are 3 choices; allow fewer"),
    ("name-but-for-case", 1, "Bo Lee", "ana GARCÍA",
     "choices.csv, row 3, column name: ana GARCÍA differs from Ana García (contests 1, choices 1, name) by "
     "white space or case alone; add what tells them apart on the sheet"),
    ("style-of-few", 2, "1100", "3",
     "styles.csv, row 3, column expected: warning: 3 voters of the style south are expected in p1, fewer "
     "than 10: whoever sees the votes of so few may know whose they are; join the style with another one, "
     "or precincts"),
    ("text-missing", 0, "mayor,Mayor", "mayor,",
     "contests.csv, row 2, column title: title is missing or empty; write it as on the sheet"),
    ("bad-id", 2, "p1,900", "Ward 1,900",
     "styles.csv, row 2, column precinct: Ward 1 is no id; an id is a letter and then up to 31 letters, "
     "digits, points, - or _"),
]
COMMANDS = [
    ("expected-missing", 1, "election|make|none.toml|--election|new.json",
     "nobody says how many ballots are expected; say --expected N, or expected voters in the book"),
    ("expected-too-many", 1, "election|make|b.toml|--election|new.json|--expected|30000",
     "b.toml: 30000 ballots expected and a fifth more are 36000, and a medium holds 32,768; say --parts 2, "
     "4 or 8"),
    ("bad-salt", 2, "election|make|b.toml|--election|new.json|--salt|12",
     "Error: Invalid value for --salt: 12 is no salt; throw 16 digits from 0 to 9 and a to f (a die of 16 "
     "faces, 16 times)"),
    ("precinct-unknown", 1, "election|make|b.toml|--election|new.json|--precinct|p9",
     "no precinct has the id p9; the precincts are: p1"),
    ("no-such-contest", 1, "election|names|b.toml|council",
     "council is no contest; the contests are 1 to 2, or their ids or titles"),
    ("no-such-contest", 1, "election|names|b.toml|3",
     "3 is no contest; the contests are 1 to 2, or their ids or titles"),
    ("no-such-choice", 1, "election|names|b.toml|1|4",
     "4 is no choice of Mayor; its choices are 1 to 3, or their ids or names"),
    ("no-such-style", 1, "election|line|b.toml|9 3 1/-",
     "3 is no style; the styles are 1 to 2, or their ids or names"),
    ("no-such-style", 1, "election|line|b.toml|--number|9|--style|west",
     "west is no style; the styles are 1 to 2, or their ids or names"),
    ("line-malformed", 1, "election|line|b.toml|9 1 -,1/-",
     "this is no record line: 9 1 -,1/-; a line is a number, a style and the marks, as: 9 1 1/-"),
    ("line-malformed", 1, "election|line|b.toml|9 1 2,1/-",
     "this is no record line: 9 1 2,1/-; a line is a number, a style and the marks, as: 9 1 1/-"),
    ("line-malformed", 1, "election|line|b.toml|0 1 1/-",
     "this is no record line: 0 1 1/-; a line is a number, a style and the marks, as: 9 1 1/-"),
    ("line-groups", 1, "election|line|b.toml|9 1 1",
     "groups of marks: 1; contests in the book: 2; is it of this election?"),
    ("line-not-on-style", 1, "election|line|b.toml|9 2 1/1",
     "contest 2 has a mark, and is not on style 2; is it of this election?"),
    ("line-choice", 1, "election|line|b.toml|9 1 4/-",
     "contest 1 has 3 choices, and 4 is marked; is it of this election?"),
    ("mark-twice", 1, "election|line|b.toml|--number|9|--style|1|--mark|1=1|--mark|mayor=2",
     "mayor is named twice; name each contest once, with all its choices behind ="),
    ("mark-malformed", 1, "election|line|b.toml|--number|9|--style|1|--mark|mayor",
     "mayor says no marks; write a contest, =, and choices with commas, as: mayor=garcia"),
    ("bad-number", 1, "election|line|b.toml|--number|0|--style|1",
     "0 is no number of a ballot; it is from 1 to 18446744073709551615, in digits alone"),
    ("bad-number", 1, "numbers|typed|12",
     "12 is no number of a ballot; it is from 1 to 18446744073709551615, in digits alone"),
    ("bad-check-digits", 1, "numbers|typed|1234-00",
     "the check digits of 1234-00 do not fit; read the label and type it once more"),
    ("count-range", 2, "numbers|--count|0|--out|new", "--count: 0 numbers; draw 1 to 1,000,000"),
    ("labels-too-many", 2, "numbers|--count|32769|--out|o|--labels|l",
     "--labels: 32769 labels; a page has at most 32,768; draw several lists, each with its page"),
    ("list-empty", 1, "numbers|check|empty", "empty: the list has no number; is it the right file?"),
    ("list-line", 1, "numbers|check|bad",
     "bad, line 1: 0 is no number of a ballot; draw the whole list again, with the observers"),
    ("list-twice", 1, "numbers|check|twice",
     "twice, line 2: the number stands in line 1 already; draw the whole list again, with the observers"),
    ("not-a-list", 1, "numbers|destroy|--yes|b.toml",
     "b.toml: the file is no list of numbers; destroy it by hand if it is meant"),
    ("file-unread", 3, "election|check|missing.toml",
     "missing.toml: the file cannot be read: No such file or directory; see its name and whether it is "
     "yours to read"),
    ("file-unread", 3, "election|check|folder",
     "folder: the file cannot be read: Is a directory; see its name and whether it is yours to read"),
    ("file-too-long", 3, "election|check|large",
     "large: the file has more than 67,108,864 bytes; is it the right file?"),
    ("file-exists", 3, "election|make|b.toml|--election|e.json",
     "e.json: a file of this name is there, and is not overwritten; choose a new name"),
    ("file-unwritten", 3, "election|make|b.toml|--election|no/e.json",
     "no/e.json: the file cannot be written: No such file or directory; see the folder, its rights and its "
     "room"),
    ("program-unread", 3, "--program|folder|election|check|--election|e.json|--medium|m",
     "folder: the program cannot be read: Is a directory; install ballot-store again"),
    ("program-other-sum", 3, "--program|plain|--program-sum|12|election|check|--election|e.json|--medium|m",
     "plain: the program's SHA-256 is 18ac1cc1c7d477ba041b12ba4b1d66066437df592287fe8f5b57ac7e3e105872, and "
     "not the one of --program-sum; compare both"),
    ("program-failed", 3, "--program|plain|--program-sum|PLAIN|election|check|--election|e.json|--medium|m",
     "m: the program ended with status 5: (no text); see docs/QUESTIONS.md"),
    ("program-unrun", 3, "--program|unrun|--program-sum|UNRUN|election|check|--election|e.json|--medium|m",
     "the program could not be run: Exec format error; install ballot-store again"),
    ("list-pattern", 1, "numbers|check|counter",
     "counter: a short width, or a clock: all lie within 3.24e-17 of the range; draw the whole list again, "
     "by the system's generator"),
    ("not-one-name", 1, "election|names|two.toml|1|Write-in", "Write-in names several: 2, 3; write its number"),
    ("audit-refused", 1, "--program|nine|--program-sum|NINE|election|check|--election|e.json|--medium|m",
     "m: an audit of this medium says: no store; see docs/QUESTIONS.md, and use no other file until then"),
]
# fmt: on
