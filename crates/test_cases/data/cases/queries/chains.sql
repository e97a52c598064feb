-- cases: in-turn
-- The scope of each ON, chains of several joins, CROSS JOIN and eight references; nine are too many. By hand from docs/LANGUAGE.md.
CREATE TABLE t (x INTEGER);
INSERT INTO t VALUES (1), (2);
CREATE TABLE v (x INTEGER, y INTEGER);
INSERT INTO v VALUES (1, 10), (2, 20);
SELECT x FROM t, v;
SELECT * FROM t, t;
SELECT a.x FROM t a JOIN t b ON a.x = c.x JOIN t c ON b.x = c.x;
SELECT a.x FROM t a, t b JOIN t c ON a.x = c.x;
SELECT a.x, b.x, c.x FROM t a JOIN t b ON a.x = b.x JOIN t c ON a.x < c.x;
SELECT a.x, b.y FROM t a LEFT JOIN v b ON a.x = b.x AND b.y > 10 JOIN t c ON c.x = a.x OR b.y IS NULL;
SELECT * FROM t CROSS JOIN v WHERE t.x <> v.x;
SELECT a.x FROM t a, t b, t c, t d, t e, t f, t g, t h, t i;
SELECT a.x FROM t a, t b, t c, t d, t e, t f, t g, t h WHERE a.x + b.x + c.x + d.x + e.x + f.x + g.x + h.x = 16;
