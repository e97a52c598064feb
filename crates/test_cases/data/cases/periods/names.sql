-- cases: in-turn
-- Where a period's name can stand, and where a column's; operands of one kind of points; a bad literal has its kind. By hand from docs/LANGUAGE.md.
CREATE TABLE emp (eno INTEGER, dept VARCHAR(10), estart DATE, eend DATE,
  s TIMESTAMP(12) GENERATED ALWAYS AS ROW START, e TIMESTAMP(12) GENERATED ALWAYS AS ROW END,
  PERIOD FOR ep (estart, eend), PERIOD FOR SYSTEM_TIME (s, e)) WITH SYSTEM VERSIONING;
AT TIMESTAMP '2011-01-01 00:00:00';
INSERT INTO emp VALUES (1, 'A', DATE '2011-01-01', DATE '2011-12-31');
SELECT ep FROM emp;
SELECT eno FROM emp WHERE ep CONTAINS (ep);
SELECT eno FROM emp WHERE estart OVERLAPS ep;
SELECT eno FROM emp WHERE ep OVERLAPS SYSTEM_TIME;
SELECT eno FROM emp WHERE ep CONTAINS TIMESTAMP '2011-01-01 00:00:00';
SELECT eno FROM emp WHERE ep OVERLAPS PERIOD (1, 2);
SELECT eno FROM emp WHERE ep OVERLAPS PERIOD (estart, s);
SELECT eno FROM emp WHERE ep OVERLAPS PERIOD (DATE '2011-02-30', DATE '2011-03-01');
