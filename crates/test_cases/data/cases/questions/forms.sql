-- cases: in-turn
-- Which questions run, and which are refused by a name or a form: every query of the grammar is bound. By hand from docs/LANGUAGE.md.
CREATE TABLE t (x INTEGER);
INSERT INTO t VALUES (1), (2);
SELECT DISTINCT x FROM t;
SELECT x FROM t ORDER BY x;
SELECT COUNT(*) FROM t;
SELECT x FROM t, t b;
SELECT ALL x FROM t WHERE x = 2;
INSERT INTO t SELECT x FROM t;
CREATE TABLE c (x INTEGER, CHECK (x > 0));
SELECT x FROM t WHERE COUNT(*) = 1;
DELETE FROM t WHERE COUNT(*) = 1;
SELECT x FROM t GROUP BY x;
SELECT x FROM t HAVING x = 1;
SELECT x FROM t JOIN t u ON t.x = u.x;
SELECT x FROM t CROSS JOIN t u;
SELECT 1 + (SUM(x)) FROM t;
SELECT x FROM t WHERE x IN (1, (2 * MAX(x)));
SELECT * FROM t;
