-- Precincts of which no return is counted. Before there is any, no total is the county's.
SELECT precinct FROM precinct
WHERE precinct NOT IN (SELECT precinct FROM counted)
ORDER BY precinct;
