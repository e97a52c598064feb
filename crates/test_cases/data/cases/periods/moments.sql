-- cases: growths in-turn
-- A period of moments, at any place among the elements, in a table without history. By hand from docs/LANGUAGE.md.
CREATE TABLE a (PERIOD FOR p (b, c), b TIMESTAMP, x INTEGER, c TIMESTAMP);
INSERT INTO a (c, b) VALUES (TIMESTAMP '2011-01-01 00:00:00.000001', TIMESTAMP '2011-01-01 00:00:00');
SELECT * FROM a WHERE p CONTAINS TIMESTAMP '2011-01-01 00:00:00';
SELECT x FROM a WHERE SYSTEM_TIME CONTAINS b;
INSERT INTO a (b) VALUES (TIMESTAMP '2011-01-01 00:00:00');
