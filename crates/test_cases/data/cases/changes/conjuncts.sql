-- cases: in-turn
-- The members of WHERE's AND list are applied from the left, each where all before it were true; inside one all is evaluated. UNKNOWN touches nothing. By hand from docs/LANGUAGE.md.
CREATE TABLE t (x INTEGER);
INSERT INTO t VALUES (1), (2);
DELETE FROM t WHERE x * 9223372036854775807 > 0 AND x = 1;
DELETE FROM t WHERE (x = 1 AND x * 9223372036854775807 > 0);
DELETE FROM t WHERE x = 1 AND x * 9223372036854775807 > 0 OR x = 3;
DELETE FROM t WHERE x = 1 AND x * 9223372036854775807 > 0;
SELECT * FROM t;
INSERT INTO t VALUES (1), (3);
DELETE FROM t WHERE x = 1 OR x = 2 AND x = 3;
CREATE TABLE u (x INTEGER, y INTEGER);
INSERT INTO u VALUES (1, NULL);
DELETE FROM u WHERE x NOT IN (2, y);
DELETE FROM u WHERE NOT (y = 1);
UPDATE u SET x = 7 WHERE y IS NULL AND x NOT BETWEEN 2 AND 3;
UPDATE u SET y = x * x - 1 WHERE NOT x <> 7;
SELECT * FROM u;
SELECT * FROM t;
