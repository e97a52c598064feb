-- cases: in-turn
-- An evaluation out of range refuses where it is reached: in ON before WHERE, in a chain also where another is empty; not behind a conjunct that is not TRUE. By hand from docs/LANGUAGE.md.
CREATE TABLE t (x INTEGER);
INSERT INTO t VALUES (1), (2);
CREATE TABLE v (y INTEGER);
INSERT INTO v VALUES (9223372036854775807);
SELECT x FROM t JOIN v ON x + y > 0 WHERE x = 5;
SELECT a.x FROM t a JOIN v ON a.x + y > 0, t b WHERE b.x = 9;
SELECT x, y FROM t LEFT JOIN v ON x = 1 AND x <> y WHERE y IS NULL;
SELECT a.x FROM t a JOIN v ON a.x = 7 AND a.x + y > 0, t b;
CREATE TABLE z (y INTEGER);
SELECT t.x FROM t JOIN v ON x + y > 0, z;
INSERT INTO z VALUES (NULL), (1), (1);
SELECT COUNT(*) FROM z a JOIN z b ON a.y = b.y;
