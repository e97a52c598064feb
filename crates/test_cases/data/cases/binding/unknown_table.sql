-- cases: in-turn
-- Changes of a table that is not there (E20), whatever else is wrong with them; a check takes them. By hand from docs/LANGUAGE.md.
INSERT INTO t VALUES (1), (1 + 2);
INSERT INTO t VALUES (1 * 2);
INSERT INTO t VALUES ((1));
INSERT INTO t VALUES (1, - 'x');
INSERT INTO t VALUES (+ DATE 'x');
INSERT INTO t VALUES (a);
UPDATE t SET a = 1;
DELETE FROM t WHERE a = 1;
