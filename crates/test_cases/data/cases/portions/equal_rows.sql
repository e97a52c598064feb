-- cases: growths in-turn
-- Rows that are equal are all touched, each replaced by its own parts, on a table that is not versioned.
-- By hand from docs/LANGUAGE.md.
CREATE TABLE r (x INTEGER, a DATE, b DATE, PERIOD FOR p (a, b));
INSERT INTO r VALUES (1, DATE '2011-01-01', DATE '2011-01-04'), (1, DATE '2011-01-01', DATE '2011-01-04'),
  (2, DATE '2011-01-02', DATE '2011-01-03');
UPDATE r FOR PORTION OF p FROM DATE '2011-01-02' TO DATE '2011-01-03' SET x = x + 10;
SELECT * FROM r;
