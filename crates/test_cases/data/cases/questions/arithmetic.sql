-- cases: in-turn
-- Sums from the left, products first; a number in between that leaves 64 bits refuses the question. By hand from docs/LANGUAGE.md.
CREATE TABLE t (x INTEGER);
INSERT INTO t VALUES (1), (2);
SELECT x + 9223372036854775807 - 9223372036854775807 FROM t;
SELECT -(-9223372036854775808) FROM t;
SELECT +x, -x, -(5) - x * 2, x * -2, 2 + x * 3 - 1 FROM t WHERE x = 2;
SELECT x * 4611686018427387904 FROM t WHERE x = 1;
SELECT x * 4611686018427387904 FROM t;
INSERT INTO t VALUES (NULL);
SELECT x + 1, x FROM t WHERE x IS NULL;
