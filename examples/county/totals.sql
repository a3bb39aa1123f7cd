-- The county's totals: of each choice the sum of the tallies that are counted.
SELECT contest, choice, sum(votes) AS votes
FROM choice_tally WHERE file IN (SELECT file FROM counted)
GROUP BY contest, choice
ORDER BY contest, choice;
