-- cases: growths in-turn
-- Groups with a NULL key, COUNT of rows and of values, HAVING, and DISTINCT in falling order. By hand from docs/LANGUAGE.md.
CREATE TABLE g (k VARCHAR(2), n INTEGER);
INSERT INTO g VALUES ('a', 1), (NULL, 5), ('a', NULL), (NULL, 7);
SELECT k, COUNT(*), COUNT(n), SUM(n) AS s FROM g GROUP BY k HAVING SUM(n) > 0;
SELECT DISTINCT k FROM g ORDER BY 1 DESC;
