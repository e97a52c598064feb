-- cases: in-turn
-- UPDATE may set the ends of a period, under the tests of a new row; a period is no column, so it cannot be set or filled. A text that is too long comes before a period that falls. By hand from docs/LANGUAGE.md.
CREATE TABLE emp (eno INTEGER, dept VARCHAR(10), estart DATE, eend DATE,
  s TIMESTAMP(12) GENERATED ALWAYS AS ROW START, e TIMESTAMP(12) GENERATED ALWAYS AS ROW END,
  PERIOD FOR ep (estart, eend), PERIOD FOR SYSTEM_TIME (s, e)) WITH SYSTEM VERSIONING;
AT TIMESTAMP '2011-01-01 00:00:00';
INSERT INTO emp VALUES (1, 'A', DATE '2011-01-01', DATE '2011-12-31');
UPDATE emp SET estart = eend, eend = estart;
UPDATE emp SET eend = NULL;
UPDATE emp SET eend = DATE '2011-06-01', dept = 'B' WHERE emp.ep SUCCEEDS PERIOD (DATE '2010-01-01', DATE '2011-01-01');
SELECT dept, estart, eend FROM emp;
UPDATE emp SET ep = DATE '2011-06-01';
INSERT INTO emp (eno, ep) VALUES (2, DATE '2011-06-01');
INSERT INTO emp VALUES (2, 'ABCDEFGHIJK', DATE '2011-05-02', DATE '2011-05-01');
