-- By a key of two columns, named in any order, and by one of the two alone, which is no key. By hand from docs/LANGUAGE.md.
CREATE TABLE t (v INTEGER, a INTEGER, b VARCHAR(3), PRIMARY KEY (a, b), UNIQUE (v));
INSERT INTO t VALUES (1, 1, 'x'), (2, 1, 'y'), (3, 2, 'x'), (4, 2, 'y');
UPDATE t SET v = 30 WHERE b = 'x' AND a = 2;
UPDATE t SET v = 5 WHERE a = 1 AND b = 'z';
UPDATE t SET v = v + 10 WHERE a = 1;
DELETE FROM t WHERE 'y' = b AND v = 4 AND 2 = a;
DELETE FROM t WHERE b = 'y' AND v = 4 AND a = 1;
SELECT * FROM t;
UPDATE t SET v = 12 WHERE a = 2 AND b = 'x';
UPDATE t SET a = 2 WHERE a = 1 AND b = 'x';
UPDATE t SET a = 2 WHERE v = 12;
DELETE FROM t WHERE a = 1 AND b = 'y';
DELETE FROM t WHERE a = 2 AND b = 'y' AND v = 12;
SELECT * FROM t;
