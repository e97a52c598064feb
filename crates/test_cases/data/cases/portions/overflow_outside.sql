-- cases: growths in-turn
-- WHERE is out of range on a row whose period does not meet the portion: no fault; without a portion it is one.
-- By hand from docs/LANGUAGE.md.
CREATE TABLE emp (eno INTEGER, dept VARCHAR(10), estart DATE, eend DATE,
  s TIMESTAMP(12) GENERATED ALWAYS AS ROW START, e TIMESTAMP(12) GENERATED ALWAYS AS ROW END,
  PERIOD FOR ep (estart, eend), PERIOD FOR SYSTEM_TIME (s, e)) WITH SYSTEM VERSIONING;
AT TIMESTAMP '2011-01-01 00:00:00';
INSERT INTO emp VALUES (1, 'A', DATE '2011-01-01', DATE '2011-12-31');
INSERT INTO emp VALUES (9223372036854775807, 'Z', DATE '2012-01-01', DATE '2013-01-01');
DELETE FROM emp WHERE eno + 1 > 0;
DELETE FROM emp FOR PORTION OF ep FROM DATE '2011-01-01' TO DATE '2011-02-01' WHERE eno + 1 > 0;
