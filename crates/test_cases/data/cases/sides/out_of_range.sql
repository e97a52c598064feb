-- cases: in-turn
-- A conjunct that is out of range beside one over one side alone: it is so on each pair on which it is evaluated. By hand from docs/LANGUAGE.md.
CREATE TABLE t (a INTEGER, b INTEGER);
INSERT INTO t VALUES (1, 1), (2, 9223372036854775807), (3, 2);
SELECT x.a AS p, y.a AS q FROM t x JOIN t y ON y.b + 1 > 0 AND y.a = 1;
SELECT x.a AS p, y.a AS q FROM t x JOIN t y ON y.a = 1 AND y.b + 1 > 0;
SELECT x.a AS p, y.a AS q FROM t x JOIN t y ON x.b + 1 > 0 AND x.a = 1;
SELECT x.a AS p, y.a AS q FROM t x JOIN t y ON x.a = 1 AND x.b + 1 > 0;
SELECT x.a AS p, y.a AS q FROM t x JOIN t y ON x.b + y.b > 0 AND y.a = 1;
SELECT x.a AS p, y.a AS q FROM t x JOIN t y ON y.a = 3 AND x.a = 1 AND x.b + y.b > 0;
SELECT x.a AS p, y.a AS q FROM t x LEFT JOIN t y ON y.b + 1 > 0 AND y.a = 1;
SELECT x.a AS p, y.a AS q FROM t x LEFT JOIN t y ON y.a = 1 AND y.b + 1 > 0;
SELECT x.a AS p, y.a AS q FROM t x LEFT JOIN t y ON x.b + 1 > 0 AND 1 = 2;
SELECT x.a AS p, y.a AS q FROM t x LEFT JOIN t y ON 1 = 2 AND x.b + 1 > 0;
SELECT x.a AS p, y.a AS q FROM t x JOIN t y ON x.a < y.a WHERE y.b + 1 > 0 AND y.a = 3;
SELECT x.a AS p, y.a AS q FROM t x JOIN t y ON x.a < y.a WHERE y.a = 3 AND y.b + 1 > 0;
SELECT x.a AS p, y.a AS q FROM t x JOIN t y ON y.b + 1 > 0 WHERE y.a = 3;
SELECT x.a AS p, y.a AS q FROM t x JOIN t y ON x.b + 1 > 0 WHERE x.a = 1;
SELECT x.a AS p, y.a AS q FROM t x LEFT JOIN t y ON x.a < y.a WHERE y.b + 1 > 0 AND y.a = 3;
SELECT x.a AS p, y.a AS q FROM t x, t y WHERE y.b + 1 > 0 AND y.a = 3;
SELECT x.a AS p, y.a AS q FROM t x, t y WHERE y.a = 3 AND y.b + 1 > 0;
SELECT x.a AS p, y.a AS q FROM t x JOIN t y ON x.a < y.a AND y.a = 7 AND x.b + 1 > 0;
SELECT x.a AS p, y.a AS q FROM t x JOIN t y ON x.a < y.a AND x.b + 1 > 0 AND y.a = 7;
SELECT x.a AS p FROM t x JOIN t y ON x.a < y.a AND y.a = 2 JOIN t z ON z.b + 1 > 0 AND y.a = 3;
SELECT x.a AS p FROM t x JOIN t y ON x.a < y.a AND y.a = 7 JOIN t z ON z.b + 1 > 0;
SELECT x.a AS p FROM t x JOIN t y ON x.b + 1 > 0 JOIN t z ON z.a = 7;
SELECT y.b + 1 AS p FROM t x JOIN t y ON x.a < y.a AND y.a = 3;
SELECT y.b + 1 AS p FROM t x JOIN t y ON x.a < y.a AND y.a < 3;
