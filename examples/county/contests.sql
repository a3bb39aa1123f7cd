-- Of each contest marks that are missing and overvotes, summed over the tallies that are counted, and their precincts.
SELECT contest, sum(under) AS under, sum(over) AS over, count(*) AS precincts
FROM contest_tally WHERE file IN (SELECT file FROM counted)
GROUP BY contest
ORDER BY contest;
