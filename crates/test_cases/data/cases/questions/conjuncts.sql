-- cases: in-turn
-- The members of WHERE's AND list are applied from the left, each where all before it were true; inside one all is evaluated. By hand from docs/LANGUAGE.md.
CREATE TABLE t (x INTEGER);
INSERT INTO t VALUES (1), (2);
SELECT x FROM t WHERE x * 9223372036854775807 > 0 AND x = 1;
SELECT x FROM t WHERE x = 1 AND x * 9223372036854775807 > 0;
SELECT x FROM t WHERE (x = 1 AND x * 9223372036854775807 > 0);
SELECT x FROM t WHERE x = 1 AND x * 9223372036854775807 > 0 OR x = 3;
SELECT x FROM t WHERE x = 1 OR x = 2 AND x = 3;
CREATE TABLE u (x INTEGER, y INTEGER);
INSERT INTO u VALUES (1, NULL);
SELECT x FROM u WHERE x NOT IN (2, y);
SELECT x FROM u WHERE x IN (1, y);
