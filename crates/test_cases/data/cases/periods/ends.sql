-- cases: growths in-turn
-- A period holds its first day and not its last; one that begins where another ends comes immediately behind it, and does not overlap. By hand from docs/LANGUAGE.md.
CREATE TABLE emp (eno INTEGER, dept VARCHAR(10), estart DATE, eend DATE,
  s TIMESTAMP(12) GENERATED ALWAYS AS ROW START, e TIMESTAMP(12) GENERATED ALWAYS AS ROW END,
  PERIOD FOR ep (estart, eend), PERIOD FOR SYSTEM_TIME (s, e)) WITH SYSTEM VERSIONING;
AT TIMESTAMP '2011-01-01 00:00:00';
INSERT INTO emp VALUES (1, 'A', DATE '2011-01-01', DATE '2011-12-31');
SELECT eno FROM emp WHERE ep CONTAINS DATE '2011-12-31';
SELECT eno FROM emp WHERE ep CONTAINS DATE '2011-12-30';
SELECT eno FROM emp WHERE ep OVERLAPS PERIOD (DATE '2011-12-31', DATE '2012-01-01');
SELECT eno FROM emp WHERE ep IMMEDIATELY PRECEDES PERIOD (DATE '2011-12-31', DATE '2012-01-01');
