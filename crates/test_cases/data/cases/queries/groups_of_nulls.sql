-- cases: in-turn
-- NULL makes one group in each column of GROUP BY, and an empty text another. A group of NULLs alone has NULL for all aggregates but COUNT. By hand
-- from docs/LANGUAGE.md.
CREATE TABLE t (a INTEGER, b VARCHAR(2), d DATE, n INTEGER);
INSERT INTO t VALUES (NULL, NULL, NULL, 1), (NULL, '', NULL, 2), (1, NULL, DATE '2011-01-01', 3), (1, NULL, NULL, NULL), (NULL, NULL, NULL, 5),
  (1, 'a', DATE '2011-01-01', 6), (0, '', DATE '2011-01-02', NULL), (NULL, '', DATE '2011-01-02', NULL);
SELECT a, COUNT(*), COUNT(n), SUM(n), MIN(n), MAX(n) FROM t GROUP BY a;
SELECT b, COUNT(*), COUNT(a), SUM(n) FROM t GROUP BY b;
SELECT d, COUNT(*), MIN(b), MAX(b) FROM t GROUP BY d;
SELECT a, b, COUNT(*), SUM(n) FROM t GROUP BY a, b;
SELECT b, a, COUNT(*) FROM t GROUP BY b, a;
SELECT a, b, d, COUNT(*) FROM t GROUP BY d, b, a;
SELECT COUNT(*) FROM t GROUP BY a, b;
SELECT n FROM t GROUP BY n;
SELECT a FROM t GROUP BY a, b HAVING b IS NULL;
SELECT a, b FROM t GROUP BY a, b HAVING a = 1;
SELECT a, b FROM t GROUP BY a, b HAVING NOT a = 1;
SELECT a, b FROM t GROUP BY a, b HAVING SUM(n) IS NULL;
SELECT l.a, COUNT(*), COUNT(r.a) FROM t l LEFT JOIN t r ON l.a = r.a AND r.b = 'a' GROUP BY l.a;
SELECT r.d, COUNT(*) FROM t l LEFT JOIN t r ON l.n = r.n AND r.n > 2 GROUP BY r.d;
SELECT DISTINCT COUNT(*) FROM t GROUP BY a, b;
SELECT a, b, COUNT(*) AS n FROM t GROUP BY a, b ORDER BY n DESC, b DESC;
