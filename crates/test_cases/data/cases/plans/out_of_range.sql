-- cases: in-turn
-- What is out of range is so whatever the plan: an ON is asked on each pair that it meets from the left, WHERE on each row of the product, a conjunct only where all before it were true. By hand from docs/LANGUAGE.md.
CREATE TABLE t (x INTEGER);
INSERT INTO t VALUES (1), (2);
CREATE TABLE v (y INTEGER);
INSERT INTO v VALUES (9223372036854775807);
SELECT x FROM t JOIN v ON x + y > 0 WHERE x = 5;
SELECT a.x FROM t a JOIN v ON a.x + y > 0, t b WHERE b.x = 9;
SELECT x, y FROM t LEFT JOIN v ON x = 1 AND x <> y WHERE y IS NULL;
SELECT x FROM t, v WHERE x + y > 0 AND x = y;
SELECT x FROM t, v WHERE x = y AND x + y > 0;
SELECT x FROM t JOIN v ON x + y > 0 AND x = y;
SELECT x FROM t JOIN v ON x = y AND x + y > 0;
SELECT x FROM t JOIN v ON x = y WHERE x + y > 0;
SELECT x FROM t JOIN v ON x < y WHERE x + y > 0 AND x = y;
SELECT a.x FROM t a, t b, v WHERE a.x = b.x AND a.x + y > 0;
SELECT a.x FROM t a, t b, v WHERE a.x = b.x AND b.x = y AND a.x + y > 0;
SELECT a.x FROM t a, t b, v WHERE a.x = 9 AND a.x + y > 0;
SELECT a.x FROM t a, t b, v WHERE a.x + y > 0 AND a.x = 9;
SELECT a.x FROM t a LEFT JOIN v ON a.x = y WHERE a.x + y > 0;
SELECT a.x FROM t a JOIN t b ON a.x = b.x WHERE a.x * 9223372036854775807 > 0;
SELECT COUNT(*) FROM t a JOIN t b ON a.x = b.x HAVING SUM(a.x) + 9223372036854775807 > 0;
