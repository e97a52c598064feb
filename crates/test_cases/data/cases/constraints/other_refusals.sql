-- cases: in-turn
-- Refusals that no constraint gives, of a table that has a key. By hand from docs/LANGUAGE.md.
CREATE TABLE emp (eno INTEGER, dept VARCHAR(10), estart DATE, eend DATE,
  s TIMESTAMP(12) GENERATED ALWAYS AS ROW START, e TIMESTAMP(12) GENERATED ALWAYS AS ROW END,
  PERIOD FOR ep (estart, eend), PERIOD FOR SYSTEM_TIME (s, e),
  PRIMARY KEY (eno, ep WITHOUT OVERLAPS)) WITH SYSTEM VERSIONING;
AT TIMESTAMP '2011-01-01 00:00:00';
INSERT INTO emp VALUES (1, 'A', DATE '2011-01-01', DATE '2011-12-31');
AT TIMESTAMP '2011-01-01 00:00:00';
SELECT dept + 1, nocol FROM nosuch;
SELECT dept + 1, nocol FROM emp;
SELECT dept + 1 FROM emp;
UPDATE emp FOR PORTION OF ep FROM DATE '2011-06-01' TO DATE '2011-06-01' SET dept = 'B';
UPDATE emp SET dept = 'ABCDEFGHIJK';
UPDATE emp SET s = TIMESTAMP '2011-01-01 00:00:00';
SELECT eno, dept, estart, eend FROM emp;
