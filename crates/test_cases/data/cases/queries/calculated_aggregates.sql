-- cases: in-turn
-- Aggregates inside expressions, one of them several times, with columns of GROUP BY and without; each is over the whole group, and only the exact
-- total of SUM has to be in range. By hand from docs/LANGUAGE.md.
CREATE TABLE t (k INTEGER, v INTEGER, x VARCHAR(3));
INSERT INTO t VALUES (1, 10, 'a'), (1, 20, NULL), (2, -7, 'b'), (2, NULL, 'c'), (2, 7, 'b'), (NULL, 4, NULL);
SELECT COUNT(*) FROM t;
SELECT COUNT(*) + 1 FROM t;
SELECT COUNT(*) - COUNT(x), COUNT(*) * COUNT(v), -COUNT(k) FROM t;
SELECT SUM(v), SUM(v) * 2, SUM(v) + SUM(v), SUM(v + v), SUM(v * 2) + 1 FROM t;
SELECT MAX(v) - MIN(v) AS width, (MAX(v) + MIN(v)) * 3 FROM t;
SELECT k, k * COUNT(*), k + SUM(v), SUM(v) - k * 10 FROM t GROUP BY k;
SELECT 7, 'x', COUNT(*) FROM t GROUP BY k;
SELECT k + 1 FROM t GROUP BY k;
SELECT MIN(x), MAX(x), MIN('z'), COUNT('z') FROM t GROUP BY k;
SELECT SUM(k * v), SUM(k) * SUM(v), MAX(k - v), MIN(-v) FROM t;
SELECT k, COUNT(*) FROM t GROUP BY k HAVING COUNT(*) * 2 > SUM(v) ORDER BY 2 DESC;
SELECT COUNT(*) FROM t a, t b WHERE a.k = b.k;
SELECT a.k, COUNT(*), SUM(a.v + b.v) FROM t a, t b WHERE a.k = b.k GROUP BY a.k;
INSERT INTO t VALUES (3, 9223372036854775807, NULL), (3, 9223372036854775807, NULL), (3, -9223372036854775808, NULL);
SELECT SUM(v) FROM t WHERE k = 3;
SELECT SUM(v) + 1, SUM(v) + 2 - 1 FROM t WHERE k = 3;
SELECT SUM(v) + 1 FROM t WHERE k = 3;
SELECT SUM(v) FROM t WHERE k = 3 AND v > 0;
SELECT MAX(v) - MIN(v) FROM t WHERE k = 3;
SELECT MAX(v) + MIN(v), COUNT(*) FROM t WHERE k = 3;
SELECT k, MAX(v) FROM t GROUP BY k;
SELECT k, MAX(v) * k FROM t GROUP BY k;
SELECT k, MAX(v) * k FROM t WHERE v < 100 GROUP BY k HAVING MAX(v) > 0;
SELECT k, SUM(v) FROM t GROUP BY k;
SELECT SUM(v) FROM t;
