-- cases: growths in-turn
-- UPDATE refuses a text that is too long, a generated column, and a value of another kind. By hand from docs/LANGUAGE.md.
CREATE TABLE emp (eno INTEGER, dept VARCHAR(10), estart DATE, eend DATE,
  s TIMESTAMP(12) GENERATED ALWAYS AS ROW START, e TIMESTAMP(12) GENERATED ALWAYS AS ROW END,
  PERIOD FOR ep (estart, eend), PERIOD FOR SYSTEM_TIME (s, e)) WITH SYSTEM VERSIONING;
AT TIMESTAMP '2011-01-01 00:00:00';
INSERT INTO emp VALUES (1, 'A', DATE '2011-01-01', DATE '2011-12-31');
UPDATE emp SET dept = 'ABCDEFGHIJK';
UPDATE emp SET s = TIMESTAMP '2011-01-01 00:00:00';
UPDATE emp SET s = 1;
