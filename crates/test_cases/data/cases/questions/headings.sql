-- cases: in-turn
-- A heading is the alias, else the column's name where the item is one column, else C and its position; an alias of the table hides the table's name. By hand from docs/LANGUAGE.md.
CREATE TABLE t (x INTEGER);
INSERT INTO t VALUES (1), (2);
SELECT a.x, x + 1, x AS "two words", - x FROM t AS a WHERE a.x >= 2;
SELECT t.x FROM t a;
SELECT x y, x FROM t;
SELECT (x), +x, T.X, t.x "x", x AS x FROM t WHERE x = 1;
SELECT 1, 'a', DATE '2011-01-02' d, x c FROM t;
SELECT * FROM t a WHERE t.x = 1;
SELECT * FROM t a WHERE a.x = 1;
