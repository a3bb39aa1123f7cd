"""A book and its tables, small and good, from which the tests make bad ones."""

GOOD_ELECTION = (
    '{"contests":[{"choices":4,"allowed":1},{"choices":3,"allowed":2}],"styles":[[1,2]],'
    '"limit":8,"bits":3,"salt":"0000000000000000"}'
)
GOOD_BOOK = """\
title = "General election"
jurisdiction = "Town of Ash"
date = 2026-11-03
languages = ["en", "es"]

[[contests]]
id = "mayor"
title = "Mayor"
kind = "candidates"
allowed = 1
seats = 1

[[contests.choices]]
id = "garcia"
name = "Ana García"
party = "Green"

[[contests.choices]]
id = "lee"
name = "Bo Lee"

[[contests.choices]]
id = "other"
name = "Write-in"
write_in = true

[[contests]]
id = "bond"
title = "Library bond"
kind = "measure"
threshold = "at least 60%"
threshold_of = "votes"
choices = [
    { id = "yes", name = "Yes" },
    { id = "no", name = "No" },
]

[[styles]]
id = "north"
name = "North"
contests = ["mayor", "bond"]

[[styles]]
id = "south"
name = "South"
contests = ["mayor"]

[[precincts]]
id = "p1"
name = "First"

[precincts.expected]
north = 900
south = 1100
"""
CONTESTS = """\
contest,title,kind,votes allowed,seats,threshold,threshold of
mayor,Mayor,,1,1,,
bond,Library bond,measure,1,,more than 1/2,ballots
"""
CHOICES = """\
contest,choice,name,party,write-in
mayor,garcia,Ana García,Green,
mayor,lee,Bo Lee,,no
mayor,,Write-in,,yes
bond,yes,Yes,,
bond,no,No,,
"""
STYLES = """\
style,name,contests,precinct,expected
north,North,all,p1,900
south,South,mayor,p1,1100
"""
LONG = "N" * 200
RIGHT_TO_LEFT = "محمد بن عبد الله " + "ا" * 180
COMBINING = ("q\u0323\u0307" * 60) + " Ngũ"


def changed(text: str, old: str, new: str) -> bytes:
    """The text with a part of it changed."""
    assert old in text, old
    return text.replace(old, new, 1).encode()
