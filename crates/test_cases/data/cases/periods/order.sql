-- cases: growths in-turn
-- Of several faults the first of the order is told: the table, then a name, then a kind. By hand from docs/LANGUAGE.md.
CREATE TABLE emp (eno INTEGER, dept VARCHAR(10), estart DATE, eend DATE,
  s TIMESTAMP(12) GENERATED ALWAYS AS ROW START, e TIMESTAMP(12) GENERATED ALWAYS AS ROW END,
  PERIOD FOR ep (estart, eend), PERIOD FOR SYSTEM_TIME (s, e)) WITH SYSTEM VERSIONING;
AT TIMESTAMP '2011-01-01 00:00:00';
INSERT INTO emp VALUES (1, 'A', DATE '2011-01-01', DATE '2011-12-31');
SELECT dept + 1, nocol FROM nosuch;
SELECT dept + 1, nocol FROM emp;
SELECT dept + 1 FROM emp;
