-- cases: in-turn
-- Conjuncts over one side of the joins of three tables, and of chains. From sqlite3.
CREATE TABLE t (a INTEGER, b INTEGER);
INSERT INTO t VALUES (1, 1), (2, 1), (3, 2), (4, NULL), (NULL, 1), (5, 3);
CREATE TABLE u (c INTEGER);
INSERT INTO u VALUES (2), (4), (NULL);
SELECT x.a AS p, y.a AS q, c FROM t x JOIN t y ON x.a < y.a AND y.b = 3 JOIN u ON c < y.a AND c > 2;
SELECT x.a AS p, y.a AS q, c FROM t x JOIN t y ON x.a < y.a JOIN u ON c < y.a WHERE y.b = 3 AND c = 2;
SELECT x.a AS p, y.a AS q, c FROM t x JOIN t y ON x.a < y.a JOIN u ON c < y.a AND x.b = 1 AND y.b = 2;
SELECT x.a AS p, y.a AS q, c FROM t x LEFT JOIN t y ON x.a < y.a AND y.b = 2 JOIN u ON c > x.a AND y.b IS NULL;
SELECT x.a AS p, y.a AS q, c FROM t x JOIN t y ON x.a < y.a AND x.b = 2 LEFT JOIN u ON c > y.a AND c = 4;
SELECT x.a AS p, y.a AS q, c FROM t x LEFT JOIN t y ON x.a < y.a AND x.b = 2 LEFT JOIN u ON c < y.a AND c = 4;
SELECT x.a AS p, y.a AS q, c FROM t x LEFT JOIN t y ON x.a < y.a AND y.b = 7 JOIN u ON y.a IS NULL AND c = 2;
SELECT x.a AS p, y.a AS q, c FROM t x, t y, u WHERE x.a < y.a AND y.b = 2 AND c < y.a;
SELECT x.a AS p, y.a AS q, c FROM t x, t y, u WHERE x.a < y.a AND c < y.a AND c = 2 AND x.b = 1;
SELECT x.a AS p, y.a AS q, c FROM u, t x JOIN t y ON x.a < y.a AND y.b = 2 WHERE c < y.a AND x.b = 1;
SELECT x.a AS p, y.a AS q, c FROM u, t x LEFT JOIN t y ON x.a < y.a AND y.b = 2 WHERE c < x.a AND x.b = 3;
SELECT x.a AS p, y.a AS q, c FROM u, t x LEFT JOIN t y ON x.a < y.a AND y.b = 2 WHERE c < x.a AND y.a IS NULL;
SELECT x.a AS p, y.a AS q, c FROM t x JOIN t y ON x.a < y.a AND y.b = 3, u WHERE c < y.a AND c > x.a;
SELECT x.a AS p, y.a AS q, c FROM t x JOIN t y ON x.a < y.a AND 1 = 2 LEFT JOIN u ON c < y.a;
SELECT x.a AS p, y.a AS q, c FROM t x LEFT JOIN t y ON x.a < y.a AND 1 = 2 LEFT JOIN u ON c > x.a AND 2 = 1;
SELECT x.a AS p, y.a AS q, c FROM t x CROSS JOIN u JOIN t y ON x.a < y.a AND c = 2 AND y.b = 2;
