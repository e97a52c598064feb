-- cases: growths
-- A period must rise, and its ends are not NULL; the system period of a row holds the moment of its commit. Each growth is refused in turn. By hand from docs/LANGUAGE.md.
CREATE TABLE emp (eno INTEGER, dept VARCHAR(10), estart DATE, eend DATE,
  s TIMESTAMP(12) GENERATED ALWAYS AS ROW START, e TIMESTAMP(12) GENERATED ALWAYS AS ROW END,
  PERIOD FOR ep (estart, eend), PERIOD FOR SYSTEM_TIME (s, e)) WITH SYSTEM VERSIONING;
AT TIMESTAMP '2011-01-01 00:00:00';
INSERT INTO emp VALUES (1, 'A', DATE '2011-01-01', DATE '2011-12-31');
INSERT INTO emp VALUES (2, 'B', DATE '2011-05-01', DATE '2011-05-01');
INSERT INTO emp VALUES (2, 'B', NULL, DATE '2011-05-01');
SELECT eno FROM emp WHERE SYSTEM_TIME CONTAINS TIMESTAMP '2011-01-01 00:00:00';
