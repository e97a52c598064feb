-- cases: growths in-turn
-- A portion that ends where a period starts touches nothing; the change commits all the same, and takes a moment.
-- By hand from docs/LANGUAGE.md.
CREATE TABLE emp (eno INTEGER, dept VARCHAR(10), estart DATE, eend DATE,
  s TIMESTAMP(12) GENERATED ALWAYS AS ROW START, e TIMESTAMP(12) GENERATED ALWAYS AS ROW END,
  PERIOD FOR ep (estart, eend), PERIOD FOR SYSTEM_TIME (s, e)) WITH SYSTEM VERSIONING;
AT TIMESTAMP '2011-01-01 00:00:00';
INSERT INTO emp VALUES (1, 'A', DATE '2011-01-01', DATE '2011-12-31');
UPDATE emp FOR PORTION OF ep FROM DATE '2010-06-01' TO DATE '2011-01-01' SET dept = 'B';
SELECT s FROM emp;
INSERT INTO emp VALUES (9, 'Z', DATE '2011-01-01', DATE '2011-12-31');
SELECT s FROM emp WHERE eno = 9;
