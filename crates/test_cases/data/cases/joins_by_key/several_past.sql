-- cases: in-turn
-- Rows joined by a key of two columns, listed in another order than the table has them, behind generated columns: as of a moment, in a range, in a transaction, by a reader, and by the row start, which no key has. By hand from docs/LANGUAGE.md.
AT TIMESTAMP '2011-01-01 00:00:00';
CREATE TABLE rate (s TIMESTAMP GENERATED ALWAYS AS ROW START, company INTEGER, f TIMESTAMP GENERATED ALWAYS AS ROW END, no INTEGER, r INTEGER, PERIOD FOR SYSTEM_TIME (s, f), PRIMARY KEY (no, company)) WITH SYSTEM VERSIONING;
CREATE TABLE emp (eno INTEGER, company INTEGER, cno INTEGER);
INSERT INTO rate (company, no, r) VALUES (1, 1, 10), (1, 2, 20), (2, 1, 30);
INSERT INTO emp VALUES (1, 1, 1), (2, 1, 2), (3, 2, 1), (4, 2, 2);
AT TIMESTAMP '2011-02-01 00:00:00';
UPDATE rate SET r = 21 WHERE no = 2;
AT TIMESTAMP '2011-03-01 00:00:00';
DELETE FROM rate WHERE company = 2;
INSERT INTO rate (company, no, r) VALUES (2, 2, 40);
SELECT eno, r FROM emp LEFT JOIN rate ON emp.cno = rate.no AND emp.company = rate.company;
SELECT eno, r FROM emp LEFT JOIN rate FOR SYSTEM_TIME AS OF TIMESTAMP '2011-01-15 00:00:00' ON emp.company = rate.company AND emp.cno = rate.no;
SELECT eno, r FROM emp JOIN rate FOR SYSTEM_TIME FROM TIMESTAMP '2011-01-01 00:00:00' TO TIMESTAMP '2011-04-01 00:00:00' ON emp.company = rate.company AND emp.cno = rate.no;
SELECT x.r AS old, y.r AS new FROM rate FOR SYSTEM_TIME AS OF TIMESTAMP '2011-01-15 00:00:00' x LEFT JOIN rate y ON x.no = y.no AND x.company = y.company;
SELECT x.r AS a, y.r AS b FROM rate x JOIN rate y ON x.s = y.s AND x.no = y.no;
OPEN READER books;
AT TIMESTAMP '2011-04-01 00:00:00';
START TRANSACTION;
UPDATE rate SET r = 11 WHERE no = 1;
SELECT eno, r FROM emp JOIN rate ON emp.company = rate.company AND emp.cno = rate.no;
READ books SELECT x.r AS a, y.r AS b FROM rate x JOIN rate y ON x.no = y.no AND x.company = y.company;
ROLLBACK;
SELECT eno, r FROM emp JOIN rate ON emp.company = rate.company AND emp.cno = rate.no;
