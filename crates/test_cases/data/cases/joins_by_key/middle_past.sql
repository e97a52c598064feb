-- cases: in-turn
-- The same of the past of a table in the middle, whose key stands behind ROW START: now, as of moments, in a range, and a table with its own past. By hand from docs/LANGUAGE.md.
AT TIMESTAMP '2011-01-01 00:00:00';
CREATE TABLE dept (s TIMESTAMP GENERATED ALWAYS AS ROW START, dno INTEGER, f TIMESTAMP GENERATED ALWAYS AS ROW END, sno INTEGER, PERIOD FOR SYSTEM_TIME (s, f), PRIMARY KEY (dno)) WITH SYSTEM VERSIONING;
CREATE TABLE emp (eno INTEGER, dno INTEGER, PRIMARY KEY (eno));
CREATE TABLE site (sno INTEGER, city VARCHAR(9), PRIMARY KEY (sno));
INSERT INTO dept (dno, sno) VALUES (1, 10), (2, 20), (3, NULL);
INSERT INTO emp VALUES (1, 1), (2, 2), (3, 3), (4, 4), (5, NULL);
INSERT INTO site VALUES (10, 'x'), (20, 'y'), (30, 'z');
AT TIMESTAMP '2011-02-01 00:00:00';
UPDATE dept SET sno = 30 WHERE dno = 2;
AT TIMESTAMP '2011-03-01 00:00:00';
DELETE FROM dept WHERE dno = 1;
INSERT INTO dept (dno, sno) VALUES (4, 10);
SELECT eno, city FROM emp, dept, site WHERE emp.eno = 2 AND dept.dno = emp.dno AND site.sno = dept.sno;
SELECT eno, city FROM emp, dept, site WHERE dept.dno = emp.dno AND site.sno = dept.sno;
SELECT eno, city FROM emp, dept FOR SYSTEM_TIME AS OF TIMESTAMP '2011-01-15 00:00:00' d, site WHERE d.dno = emp.dno AND site.sno = d.sno;
SELECT eno, city FROM emp, dept FOR SYSTEM_TIME AS OF TIMESTAMP '2011-02-15 00:00:00' d, site WHERE d.dno = emp.dno AND site.sno = d.sno;
SELECT eno, d.sno, city FROM emp, dept FOR SYSTEM_TIME AS OF TIMESTAMP '2011-02-15 00:00:00' d, site WHERE eno = 3 AND d.dno = emp.dno AND site.sno = 20;
SELECT eno, city FROM emp, dept FOR SYSTEM_TIME FROM TIMESTAMP '2011-01-01 00:00:00' TO TIMESTAMP '2011-03-01 00:00:00' d, site WHERE eno = 2 AND d.dno = emp.dno AND site.sno = d.sno;
SELECT o.dno, n.sno AS x, city FROM dept FOR SYSTEM_TIME AS OF TIMESTAMP '2011-01-15 00:00:00' o, dept n, site WHERE n.dno = o.dno AND o.s < n.s AND site.sno = o.sno;
SELECT n.dno, o.sno AS x, city FROM dept n, dept FOR SYSTEM_TIME AS OF TIMESTAMP '2011-01-15 00:00:00' o, site WHERE n.dno = 2 AND o.dno = n.dno AND site.sno = n.sno;
