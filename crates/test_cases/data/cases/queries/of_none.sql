-- cases: growths in-turn
-- One group of no rows without GROUP BY, and none with it. By hand from docs/LANGUAGE.md.
CREATE TABLE e (k INTEGER, n INTEGER);
SELECT COUNT(*), COUNT(n), SUM(n), MIN(n), MAX(k) FROM e;
SELECT k, COUNT(*) FROM e GROUP BY k;
SELECT COUNT(*) FROM e HAVING COUNT(*) > 0;
SELECT 1 FROM e HAVING COUNT(*) = 0;
