-- SET of the key's own column: the row is found by its new value from then on, and the key is tested after the statement. By hand from docs/LANGUAGE.md.
CREATE TABLE t (k INTEGER, v INTEGER, PRIMARY KEY (k));
INSERT INTO t VALUES (1, 10), (2, 20);
UPDATE t SET k = 3 WHERE k = 1;
UPDATE t SET v = 0 WHERE k = 1;
UPDATE t SET v = 30 WHERE k = 3;
UPDATE t SET k = k WHERE k = 3;
UPDATE t SET k = 2 WHERE k = 3;
UPDATE t SET k = v, v = k WHERE k = 2;
UPDATE t SET k = k - 1 WHERE k = 20;
UPDATE t SET k = 9223372036854775807 WHERE k = 19;
UPDATE t SET k = k + 1 WHERE k = 9223372036854775807;
SELECT * FROM t;
INSERT INTO t VALUES (1, 11);
DELETE FROM t WHERE k = 3;
DELETE FROM t WHERE k = 1;
SELECT * FROM t;
