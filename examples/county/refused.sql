-- Returns that are not counted, and why: a precinct that came twice, or under the checksum of another election, or
-- that is none of the county's, or ballots that another return has too.
SELECT precinct, file, reason FROM refused
ORDER BY precinct, file, reason;
