-- How are adjacent periods with equal values printed as one?
-- The text was written by hand from docs/LANGUAGE.md.
CREATE TABLE rate (employee INTEGER, cents INTEGER, since DATE, until DATE, PERIOD FOR valid (since, until),
  PRIMARY KEY (employee, valid WITHOUT OVERLAPS));
INSERT INTO rate VALUES (1, 2000, DATE '2024-01-01', DATE '2025-01-01'),
  (2, 1800, DATE '2024-01-01', DATE '2024-07-01'), (2, 1900, DATE '2024-07-01', DATE '2025-01-01');
UPDATE rate FOR PORTION OF valid FROM DATE '2024-02-01' TO DATE '2024-03-01' SET cents = 2100 WHERE employee = 1;
UPDATE rate SET cents = 2000 WHERE employee = 1 AND cents = 2100;
SELECT employee, cents, since, until FROM rate;
SELECT f.employee, f.cents, f.since, MIN(l.until) AS until
  FROM rate f LEFT JOIN rate p
         ON p.employee = f.employee AND p.cents = f.cents AND p.valid IMMEDIATELY PRECEDES f.valid,
       rate l LEFT JOIN rate n
         ON n.employee = l.employee AND n.cents = l.cents AND n.valid IMMEDIATELY SUCCEEDS l.valid
  WHERE p.employee IS NULL AND n.employee IS NULL
    AND l.employee = f.employee AND l.cents = f.cents AND l.until > f.since
  GROUP BY f.employee, f.cents, f.since;
