-- cases: growths in-turn
-- A second portion over a part of the first, and of what the first left: two rows are touched.
-- By hand from docs/LANGUAGE.md.
CREATE TABLE emp (eno INTEGER, dept VARCHAR(10), estart DATE, eend DATE,
  s TIMESTAMP(12) GENERATED ALWAYS AS ROW START, e TIMESTAMP(12) GENERATED ALWAYS AS ROW END,
  PERIOD FOR ep (estart, eend), PERIOD FOR SYSTEM_TIME (s, e)) WITH SYSTEM VERSIONING;
AT TIMESTAMP '2011-01-01 00:00:00';
INSERT INTO emp VALUES (1, 'A', DATE '2011-01-01', DATE '2011-12-31');
UPDATE emp FOR PORTION OF ep FROM DATE '2011-02-01' TO DATE '2011-03-01' SET dept = 'B';
UPDATE emp FOR PORTION OF ep FROM DATE '2011-02-15' TO DATE '2011-04-01' SET dept = 'C';
SELECT dept, estart, eend FROM emp;
