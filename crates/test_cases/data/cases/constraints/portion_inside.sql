-- cases: growths in-turn
-- A portion inside a period leaves two parts that do not overlap it: the key holds, and the past shows the row as it was.
-- By hand from docs/LANGUAGE.md.
CREATE TABLE emp (eno INTEGER, dept VARCHAR(10), estart DATE, eend DATE,
  s TIMESTAMP(12) GENERATED ALWAYS AS ROW START, e TIMESTAMP(12) GENERATED ALWAYS AS ROW END,
  PERIOD FOR ep (estart, eend), PERIOD FOR SYSTEM_TIME (s, e),
  PRIMARY KEY (eno, ep WITHOUT OVERLAPS)) WITH SYSTEM VERSIONING;
AT TIMESTAMP '2011-01-01 00:00:00';
INSERT INTO emp VALUES (1, 'A', DATE '2011-01-01', DATE '2011-12-31');
AT TIMESTAMP '2011-02-01 00:00:00';
UPDATE emp FOR PORTION OF ep FROM DATE '2011-03-01' TO DATE '2011-06-01' SET dept = 'B';
SELECT * FROM emp;
SELECT dept, e FROM emp FOR SYSTEM_TIME AS OF TIMESTAMP '2011-01-15 00:00:00';
