-- cases: in-turn
-- SET sees the row as it stood before the statement, and a sum out of range anywhere refuses the whole statement. By hand from docs/LANGUAGE.md.
CREATE TABLE w (a INTEGER, b INTEGER);
INSERT INTO w VALUES (1, 2);
UPDATE w SET a = b, b = a;
SELECT * FROM w;
CREATE TABLE t (x INTEGER);
INSERT INTO t VALUES (1), (2);
UPDATE t SET x = x + 9223372036854775807;
SELECT * FROM t;
INSERT INTO t VALUES (9223372036854775808);
INSERT INTO t VALUES (-9223372036854775808);
INSERT INTO t VALUES (9223372036854775807 + 1 - 1);
INSERT INTO t VALUES (2 + 3 * 4 - -1), (-(5) - 2);
SELECT * FROM t;
