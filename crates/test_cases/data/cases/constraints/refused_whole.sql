-- cases: growths
-- An INSERT whose second row overlaps one that is there: no row of it stays, whatever growth is refused.
-- By hand from docs/LANGUAGE.md.
CREATE TABLE emp (eno INTEGER, dept VARCHAR(10), estart DATE, eend DATE,
  s TIMESTAMP(12) GENERATED ALWAYS AS ROW START, e TIMESTAMP(12) GENERATED ALWAYS AS ROW END,
  PERIOD FOR ep (estart, eend), PERIOD FOR SYSTEM_TIME (s, e),
  PRIMARY KEY (eno, ep WITHOUT OVERLAPS)) WITH SYSTEM VERSIONING;
AT TIMESTAMP '2011-01-01 00:00:00';
INSERT INTO emp VALUES (1, 'A', DATE '2011-01-01', DATE '2011-12-31');
INSERT INTO emp VALUES (2, 'B', DATE '2011-01-01', DATE '2011-02-01'), (1, 'C', DATE '2010-05-01', DATE '2011-06-01');
SELECT eno FROM emp;
