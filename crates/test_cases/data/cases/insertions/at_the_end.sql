-- cases: in-turn
-- Changes where the clock stands at the highest moment (E41), before later faults. By hand from docs/LANGUAGE.md.
CREATE TABLE t (d DATE NOT NULL, v VARCHAR(1)); AT TIMESTAMP '9999-12-31 23:59:59.999999';
INSERT INTO t VALUES (DATE '2011-04-01', 'a');
INSERT INTO u VALUES (1);
INSERT INTO t (d, d) VALUES (1);
INSERT INTO t VALUES (1);
INSERT INTO t VALUES (DATE '2011-02-29', 'a');
INSERT INTO t VALUES (NULL, 'ab');
INSERT INTO t VALUES (NULL, 1 + 1);
DELETE FROM u;
START TRANSACTION;
CREATE TABLE t (x INT);
SELECT * FROM u;
SELECT * FROM t;
