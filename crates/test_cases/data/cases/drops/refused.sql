-- cases: in-turn
-- DROP TABLE inside a transaction (E40) comes before a table that is not there (E20), and changes nothing; outside it runs with the clock
-- at its end too. By hand from docs/LANGUAGE.md.
CREATE TABLE t (x INTEGER);
INSERT INTO t VALUES (1);
START TRANSACTION;
DROP TABLE t;
DROP TABLE nowhere;
INSERT INTO t VALUES (2);
COMMIT;
SELECT * FROM t;
DROP TABLE tt;
DROP TABLE "t";
AT TIMESTAMP '9999-12-31 23:59:59.999999';
INSERT INTO t VALUES (3);
DROP TABLE "T";
DROP TABLE t;
DROP TABLE t CASCADE;
DROP TABLE t, u;
DROP t;
