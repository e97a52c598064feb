-- cases: short whole
-- A group of 100,000 rows, 100,000 groups of one, and 100,000 rows that DISTINCT takes once. The sum of 1 to 100,000 is 5,000,050,000. By
-- hand from docs/LANGUAGE.md.
CREATE TABLE d (n INTEGER);
INSERT INTO d VALUES (0), (1), (2), (3), (4), (5), (6), (7), (8), (9);
CREATE TABLE t (k INTEGER, n INTEGER);
INSERT INTO t SELECT 4, v.n * 10000 + w.n * 1000 + x.n * 100 + y.n * 10 + z.n + 1 FROM d v, d w, d x, d y, d z;
SELECT COUNT(*), COUNT(k), SUM(n), MIN(n), MAX(n) FROM t;
SELECT k, COUNT(*), SUM(n), MIN(n), MAX(n) FROM t GROUP BY k HAVING SUM(n - k) > 0;
SELECT DISTINCT k FROM t;
SELECT n, COUNT(*) FROM t GROUP BY n;
SELECT n FROM t ORDER BY n;
DELETE FROM t WHERE n > 1;
SELECT * FROM t;
