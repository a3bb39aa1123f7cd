-- Where the ballots of a return are not those of its tally: nothing, if its tally and its export are of one set.
-- A contest in which a ballot has more marks than are allowed counts for none of its choices.
WITH marked AS (
    SELECT number, file, contest, count(*) AS marks FROM mark GROUP BY number, file, contest
), recounted AS (
    SELECT file, contest, choice, count(*) AS votes
    FROM mark JOIN marked USING (number, file, contest) JOIN contest USING (contest)
    WHERE marks <= allowed
    GROUP BY file, contest, choice
)
SELECT file, contest, choice, choice_tally.votes AS told, coalesce(recounted.votes, 0) AS on_ballots
FROM choice_tally LEFT JOIN recounted USING (file, contest, choice)
WHERE told <> on_ballots
ORDER BY file, contest, choice;
