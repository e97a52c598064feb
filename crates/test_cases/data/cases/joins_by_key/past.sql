-- cases: in-turn
-- Rows joined by a key with the past of a table, whose key stands behind a generated column: as of a moment, in a range, now, and a table with itself. By hand from docs/LANGUAGE.md.
AT TIMESTAMP '2011-01-01 00:00:00';
CREATE TABLE dept (s TIMESTAMP GENERATED ALWAYS AS ROW START, dno INTEGER, f TIMESTAMP GENERATED ALWAYS AS ROW END, dname VARCHAR(9), PERIOD FOR SYSTEM_TIME (s, f), PRIMARY KEY (dno)) WITH SYSTEM VERSIONING;
CREATE TABLE emp (eno INTEGER, dno INTEGER, PRIMARY KEY (eno));
INSERT INTO dept (dno, dname) VALUES (1, 'a'), (2, 'b'), (3, 'c');
INSERT INTO emp VALUES (1, 1), (2, 2), (3, 4), (4, NULL);
AT TIMESTAMP '2011-02-01 00:00:00';
UPDATE dept SET dname = 'z' WHERE dno = 2;
AT TIMESTAMP '2011-03-01 00:00:00';
DELETE FROM dept WHERE dno = 1;
INSERT INTO dept (dno, dname) VALUES (4, 'd');
SELECT eno, dname FROM emp JOIN dept ON emp.dno = dept.dno;
SELECT eno, dname FROM emp LEFT JOIN dept ON emp.dno = dept.dno;
SELECT eno, dname FROM emp JOIN dept FOR SYSTEM_TIME AS OF TIMESTAMP '2011-01-15 00:00:00' ON emp.dno = dept.dno;
SELECT eno, dname FROM emp LEFT JOIN dept FOR SYSTEM_TIME AS OF TIMESTAMP '2011-02-15 00:00:00' ON emp.dno = dept.dno;
SELECT eno, dname FROM emp JOIN dept FOR SYSTEM_TIME FROM TIMESTAMP '2011-01-01 00:00:00' TO TIMESTAMP '2011-03-01 00:00:00' ON emp.dno = dept.dno;
SELECT eno, dname FROM emp LEFT JOIN dept FOR SYSTEM_TIME BETWEEN TIMESTAMP '2011-02-01 00:00:00' AND TIMESTAMP '2011-03-01 00:00:00' ON emp.dno = dept.dno;
SELECT o.dno, o.dname AS x, n.dname AS y FROM dept FOR SYSTEM_TIME AS OF TIMESTAMP '2011-01-15 00:00:00' o LEFT JOIN dept n ON o.dno = n.dno;
SELECT n.dno, o.dname AS x, n.dname AS y FROM dept n LEFT JOIN dept FOR SYSTEM_TIME AS OF TIMESTAMP '2011-01-15 00:00:00' o ON o.dno = n.dno;
SELECT n.dno, o.dname AS x, n.dname AS y FROM dept n JOIN dept FOR SYSTEM_TIME FROM TIMESTAMP '2011-01-01 00:00:00' TO TIMESTAMP '2012-01-01 00:00:00' o ON o.dno = n.dno AND o.s < n.s;
AT TIMESTAMP '2011-04-01 00:00:00';
START TRANSACTION;
UPDATE dept SET dname = 'w' WHERE dno = 4;
SELECT eno, dname FROM emp JOIN dept ON emp.dno = dept.dno;
COMMIT;
SELECT eno, dname FROM emp JOIN dept ON emp.dno = dept.dno;
