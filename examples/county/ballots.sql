-- The ballots of the county, in the order of their numbers and in no other.
SELECT number, style, precinct FROM ballot JOIN counted USING (file)
ORDER BY number;
