-- What is owed after a retroactive rise?
-- The text was written by hand from docs/LANGUAGE.md.
CREATE TABLE rate (employee INTEGER, cents INTEGER, since DATE, until DATE, PERIOD FOR valid (since, until),
  known_from TIMESTAMP GENERATED ALWAYS AS ROW START, known_to TIMESTAMP GENERATED ALWAYS AS ROW END,
  PERIOD FOR SYSTEM_TIME (known_from, known_to), PRIMARY KEY (employee, valid WITHOUT OVERLAPS)) WITH SYSTEM VERSIONING;
CREATE TABLE worked (employee INTEGER, day DATE, hours INTEGER, PRIMARY KEY (employee, day));
AT TIMESTAMP '2024-01-10 09:00:00';
INSERT INTO rate VALUES (1, 2000, DATE '2024-01-01', DATE '2025-01-01'),
  (2, 1800, DATE '2024-01-01', DATE '2025-01-01');
INSERT INTO worked VALUES (1, DATE '2024-03-04', 8), (1, DATE '2024-03-18', 8), (1, DATE '2024-03-19', 6),
  (2, DATE '2024-03-04', 8);
AT TIMESTAMP '2024-04-12 09:00:00';    -- a rise from 16 March on
UPDATE rate FOR PORTION OF valid FROM DATE '2024-03-16' TO DATE '2025-01-01' SET cents = 2200 WHERE employee = 1;
SELECT w.employee, SUM(w.hours * o.cents) AS paid, SUM(w.hours * n.cents) AS due,
    SUM(w.hours * n.cents) - SUM(w.hours * o.cents) AS owed
  FROM worked w
  JOIN rate FOR SYSTEM_TIME AS OF TIMESTAMP '2024-03-31 12:00:00' o
    ON o.employee = w.employee AND o.valid CONTAINS w.day
  JOIN rate n ON n.employee = w.employee AND n.valid CONTAINS w.day
  WHERE PERIOD (DATE '2024-03-01', DATE '2024-04-01') CONTAINS w.day
  GROUP BY w.employee;
