-- cases: in-turn
-- What a grouped query may name, aggregates inside expressions, and MIN and MAX of texts and days. By hand from docs/LANGUAGE.md.
CREATE TABLE t (x INTEGER);
INSERT INTO t VALUES (1), (2);
SELECT * FROM t GROUP BY x;
SELECT x FROM t HAVING COUNT(*) > 0;
SELECT t.x FROM t GROUP BY x;
SELECT SUM(COUNT(*)) FROM t;
SELECT x FROM t WHERE COUNT(*) > 0;
SELECT SUM(x + 1) * 2 AS s, COUNT(*) FROM t;
SELECT 5 FROM t GROUP BY x;
CREATE TABLE d (c VARCHAR(2), a DATE);
INSERT INTO d VALUES ('b', DATE '2011-01-02'), ('a', NULL), (NULL, DATE '2011-01-01');
SELECT MIN(c), MAX(c), MIN(a), MAX(a) FROM d;
SELECT SUM(c) FROM d;
