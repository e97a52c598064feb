-- cases: in-turn
-- The transaction and the clock come before every fault of names, but not where a question is asked. By hand from docs/LANGUAGE.md.
CREATE TABLE t (x INTEGER);
INSERT INTO t VALUES (1), (2);
START TRANSACTION;
DROP TABLE nosuch;
AT TIMESTAMP '2011-02-30 00:00:00';
UPDATE nosuch SET x = 1;
SELECT x FROM nosuch;
ROLLBACK;
AT TIMESTAMP '2011-02-30 00:00:00';
AT TIMESTAMP '9999-12-31 23:59:59.999999';
UPDATE nosuch SET x = 1;
SELECT x FROM nosuch;
DELETE FROM t WHERE x = 'a';
SELECT x FROM t WHERE x = 'a';
DROP TABLE t;
DROP TABLE t;
