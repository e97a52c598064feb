-- cases: in-turn
-- A table joined with itself as of two moments, and rows that are joined by their ROW START. By hand from docs/LANGUAGE.md.
AT TIMESTAMP '2011-01-01 00:00:00';
CREATE TABLE e (eno INTEGER, dept VARCHAR(9), s TIMESTAMP GENERATED ALWAYS AS ROW START, f TIMESTAMP GENERATED ALWAYS AS ROW END, PERIOD FOR SYSTEM_TIME (s, f)) WITH SYSTEM VERSIONING;
INSERT INTO e VALUES (1, 'a'), (2, 'b'), (3, 'c');
AT TIMESTAMP '2011-02-01 00:00:00';
UPDATE e SET dept = 'z' WHERE eno = 2;
AT TIMESTAMP '2011-03-01 00:00:00';
DELETE FROM e WHERE eno = 1;
INSERT INTO e VALUES (4, 'd');
SELECT o.eno, o.dept, n.dept FROM e FOR SYSTEM_TIME AS OF TIMESTAMP '2011-01-15 00:00:00' o JOIN e FOR SYSTEM_TIME AS OF TIMESTAMP '2011-03-15 00:00:00' n ON o.eno = n.eno;
SELECT o.eno, o.dept, n.dept FROM e FOR SYSTEM_TIME AS OF TIMESTAMP '2011-01-15 00:00:00' o LEFT JOIN e n ON o.eno = n.eno;
SELECT o.eno, n.eno FROM e FOR SYSTEM_TIME AS OF TIMESTAMP '2011-01-15 00:00:00' o, e n WHERE o.eno = n.eno AND o.dept <> n.dept;
SELECT o.eno, n.eno FROM e o JOIN e n ON o.s = n.s;
SELECT o.eno, n.eno FROM e FOR SYSTEM_TIME FROM TIMESTAMP '2011-01-01 00:00:00' TO TIMESTAMP '2012-01-01 00:00:00' o JOIN e n ON o.f = n.s;
