-- cases: growths in-turn
-- DELETE of one day leaves two parts with that day between them, so that none precedes the other immediately.
-- By hand from docs/LANGUAGE.md.
CREATE TABLE emp (eno INTEGER, dept VARCHAR(10), estart DATE, eend DATE,
  s TIMESTAMP(12) GENERATED ALWAYS AS ROW START, e TIMESTAMP(12) GENERATED ALWAYS AS ROW END,
  PERIOD FOR ep (estart, eend), PERIOD FOR SYSTEM_TIME (s, e)) WITH SYSTEM VERSIONING;
AT TIMESTAMP '2011-01-01 00:00:00';
INSERT INTO emp VALUES (1, 'A', DATE '2011-01-01', DATE '2011-12-31');
DELETE FROM emp FOR PORTION OF ep FROM DATE '2011-05-10' TO DATE '2011-05-11';
SELECT estart, eend FROM emp;
SELECT a.eno FROM emp a, emp b WHERE a.ep IMMEDIATELY PRECEDES b.ep;
