-- cases: in-turn
-- Eight references are taken and nine are not, in one chain or several, in an INSERT too; before any name is looked at, and behind the grammar. By hand from docs/LANGUAGE.md.
CREATE TABLE t (x INTEGER);
INSERT INTO t VALUES (1), (2);
SELECT a.x FROM t a JOIN t b ON a.x < b.x JOIN t c ON b.x = c.x CROSS JOIN t d LEFT JOIN t e ON d.x = e.x + 1, t f JOIN t g ON f.x = g.x, t h WHERE d.x = 2 AND f.x = h.x;
SELECT COUNT(*), SUM(a.x), MAX(h.x) FROM t a, t b, t c, t d, t e, t f, t g, t h;
INSERT INTO t SELECT a.x + h.x FROM t a, t b, t c, t d, t e, t f, t g, t h WHERE a.x * b.x * c.x * d.x * e.x * f.x * g.x * h.x = 256;
INSERT INTO t SELECT a.x FROM t a, t b, t c, t d, t e, t f, t g, t h, t i;
SELECT a.x FROM t a JOIN t b ON a.x < b.x JOIN t c ON b.x = c.x CROSS JOIN t d LEFT JOIN t e ON d.x = e.x, t f JOIN t g ON f.x = g.x, t h, t i;
SELECT nocol FROM n1, n2, n3, n4, n5, n6, n7, n8, n9;
INSERT INTO nosuch SELECT nocol FROM n1, n1, n1, n1, n1, n1, n1, n1, n1;
SELECT nocol FROM n1, n1, n1, n1, n1, n1, n1, n1;
SELECT nocol FROM n1, n2, n3, n4, n5, n6, n7, n8, n9 ORDER BY;
SELECT x FROM t;
