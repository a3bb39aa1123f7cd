-- The tables of a county: what its precincts handed in, contest by contest and ballot by ballot.
-- A ballot's number has up to 64 bits without a sign, which SQLite's numbers have not: it is text of 20 digits.
-- Tables of ballots have no rowid, so that the order in which rows came in is kept nowhere.

CREATE TABLE contest (contest INTEGER PRIMARY KEY, choices INTEGER NOT NULL, allowed INTEGER NOT NULL);

-- The county's election, as the SHA-256 of its file, and the precincts that have to hand in a return.
CREATE TABLE county (election TEXT NOT NULL);
CREATE TABLE precinct (precinct TEXT PRIMARY KEY) WITHOUT ROWID;

-- A return: the file that was handed in, and what its first lines say. `held` is the number of its tally.
CREATE TABLE handed (
    file TEXT PRIMARY KEY,
    precinct TEXT NOT NULL,
    election TEXT NOT NULL,
    held INTEGER NOT NULL
) WITHOUT ROWID;

-- Its tally.
CREATE TABLE contest_tally (
    file TEXT NOT NULL REFERENCES handed,
    contest INTEGER NOT NULL,
    under INTEGER NOT NULL,
    over INTEGER NOT NULL,
    PRIMARY KEY (file, contest)
) WITHOUT ROWID;
CREATE TABLE choice_tally (
    file TEXT NOT NULL REFERENCES handed,
    contest INTEGER NOT NULL,
    choice INTEGER NOT NULL,
    votes INTEGER NOT NULL,
    PRIMARY KEY (file, contest, choice)
) WITHOUT ROWID;

-- Its export: each ballot, and each mark on it.
CREATE TABLE ballot (
    number TEXT NOT NULL,
    file TEXT NOT NULL REFERENCES handed,
    style INTEGER NOT NULL,
    PRIMARY KEY (number, file)
) WITHOUT ROWID;
CREATE TABLE mark (
    number TEXT NOT NULL,
    file TEXT NOT NULL REFERENCES handed,
    contest INTEGER NOT NULL,
    choice INTEGER NOT NULL,
    PRIMARY KEY (number, file, contest, choice)
) WITHOUT ROWID;

-- Returns that are not counted, and why.
CREATE VIEW refused AS
    SELECT file, precinct, 'other election' AS reason FROM handed WHERE election NOT IN (SELECT election FROM county)
    UNION ALL
    SELECT file, precinct, 'no precinct' FROM handed WHERE precinct NOT IN (SELECT precinct FROM precinct)
    UNION ALL
    SELECT file, precinct, 'precinct twice' FROM handed
        WHERE precinct IN (SELECT precinct FROM handed GROUP BY precinct HAVING count(*) > 1)
    UNION ALL
    SELECT file, precinct, 'ballots twice' FROM handed
        WHERE file IN (SELECT file FROM ballot
                       WHERE number IN (SELECT number FROM ballot GROUP BY number HAVING count(*) > 1));

-- Returns that are counted.
CREATE VIEW counted AS SELECT * FROM handed WHERE file NOT IN (SELECT file FROM refused);
