-- cases: growths
-- A SUM is refused on its exact total, where it is reached: not for a group that HAVING has dropped. Each growth is refused in turn. By hand from docs/LANGUAGE.md.
CREATE TABLE g (k INTEGER, n INTEGER);
INSERT INTO g VALUES (1, 9223372036854775807), (1, 1), (2, 3), (2, 4);
SELECT k, SUM(n) FROM g GROUP BY k;
SELECT k, SUM(n) FROM g GROUP BY k HAVING k = 2;
SELECT k FROM g GROUP BY k HAVING k = 2 AND SUM(n) > 0;
SELECT k FROM g GROUP BY k HAVING SUM(n) > 0 AND k = 2;
SELECT k, COUNT(n + 1) AS c FROM g GROUP BY k HAVING k > 1;
INSERT INTO g VALUES (1, -9223372036854775807);
SELECT k, SUM(n), SUM(n) + 1, MIN(n), MAX(n) FROM g GROUP BY k;
