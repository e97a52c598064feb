-- cases: growths in-turn
-- The names in changes and definitions that E20 and E21 are told with. The .err was read, not written, by hand.
CREATE TABLE emp (ename VARCHAR(20), dept INTEGER, d1 DATE, d2 DATE, PERIOD FOR ep (d1, d2), PRIMARY KEY (ename));
CREATE TABLE dept (dno INTEGER, dname VARCHAR(20), PRIMARY KEY (dno));
INSERT INTO emp (ename, dep) VALUES ('a', 1);
INSERT INTO emp (ename, ename) VALUES ('a', 'b');
INSERT INTO dept VALUES (1, ada);
INSERT INTO dept SELECT dno, nmae FROM dept;
UPDATE emp SET nmae = 'x';
UPDATE emp SET ename = 'x', ename = 'y';
UPDATE emp SET dept = dpet + 1;
UPDATE emp SET dept = 1 WHERE dpet = 1;
UPDATE emp FOR PORTION OF es FROM DATE '2011-01-01' TO DATE '2011-01-02' SET dept = 1;
DELETE FROM emp WHERE emp.dpet = 1;
DELETE FROM emp WHERE dept.dno = 1;
CREATE TABLE c (a INTEGER, b INTEGER, a DATE);
CREATE TABLE c (a INTEGER, PRIMARY KEY (b));
CREATE TABLE c (a INTEGER, FOREIGN KEY (a) REFERENCES dept (no));
CREATE TABLE c (a INTEGER, b INTEGER, PRIMARY KEY (a), FOREIGN KEY (b) REFERENCES c (a));
SELECT ename FROM emp JOIN emp ON dept = dept;
