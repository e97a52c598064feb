-- cases: growths in-turn
-- The tables and names that E20 and E21 are told with: the first in the order of the text. The .err was read, not written, by hand.
CREATE TABLE emp (ename VARCHAR(20), dept INTEGER, d1 DATE, d2 DATE, PERIOD FOR ep (d1, d2), PRIMARY KEY (ename));
CREATE TABLE dept (dno INTEGER, dname VARCHAR(20), PRIMARY KEY (dno));
CREATE TABLE emp (x INTEGER);
CREATE TABLE c (a INTEGER, FOREIGN KEY (a) REFERENCES depp (dno));
SELECT ename FROM empp;
SELECT ename FROM emp JOIN dep d ON dept = dno;
SELECT ename FROM emp, "emp";
INSERT INTO dep VALUES (1);
INSERT INTO dept SELECT * FROM dep;
UPDATE dep SET dno = 1;
DELETE FROM dep;
DROP TABLE dep;
