-- cases: growths
-- Each growth of a check is refused in turn: a query of many parts, and statements of other forms. By hand from docs/LANGUAGE.md.
SELECT a * 2 + 1 AS b, COUNT (*) FROM t JOIN u ON a = b AND (c IN (1, 2) OR NOT p OVERLAPS q)
WHERE (a) < 3 GROUP BY a, c HAVING SUM (a) > 4 ORDER BY b, 2;
SELECT a + 1 AS b FROM t, u WHERE a = 1 AND b IN (1, 2) ORDER BY b;
CREATE TABLE t (a INT, PRIMARY KEY (a));
INSERT INTO t (a) VALUES (1), (2);
