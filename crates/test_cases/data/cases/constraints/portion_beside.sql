-- cases: in-turn
-- A portion that ends where the period begins touches no row, and is a commit; one that is wider changes the whole row.
-- By hand from docs/LANGUAGE.md.
CREATE TABLE emp (eno INTEGER, dept VARCHAR(10), estart DATE, eend DATE,
  s TIMESTAMP(12) GENERATED ALWAYS AS ROW START, e TIMESTAMP(12) GENERATED ALWAYS AS ROW END,
  PERIOD FOR ep (estart, eend), PERIOD FOR SYSTEM_TIME (s, e),
  PRIMARY KEY (eno, ep WITHOUT OVERLAPS)) WITH SYSTEM VERSIONING;
AT TIMESTAMP '2011-01-01 00:00:00';
INSERT INTO emp VALUES (1, 'A', DATE '2011-01-01', DATE '2011-12-31');
UPDATE emp FOR PORTION OF ep FROM DATE '2010-06-01' TO DATE '2011-01-01' SET dept = 'B';
SELECT s FROM emp;
AT TIMESTAMP '2011-01-01 00:00:00.000001';
UPDATE emp FOR PORTION OF ep FROM DATE '2010-01-01' TO DATE '2012-06-01' SET dept = 'B';
SELECT dept, estart, eend, s FROM emp;
