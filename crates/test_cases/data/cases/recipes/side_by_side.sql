-- What did the books say of a day at two moments, side by side?
-- The text was written by hand from docs/LANGUAGE.md.
CREATE TABLE staff (employee INTEGER, name VARCHAR(20), PRIMARY KEY (employee));
CREATE TABLE rate (employee INTEGER, cents INTEGER, since DATE, until DATE, PERIOD FOR valid (since, until),
  known_from TIMESTAMP GENERATED ALWAYS AS ROW START, known_to TIMESTAMP GENERATED ALWAYS AS ROW END,
  PERIOD FOR SYSTEM_TIME (known_from, known_to), PRIMARY KEY (employee, valid WITHOUT OVERLAPS)) WITH SYSTEM VERSIONING;
INSERT INTO staff VALUES (1, 'Ada'), (2, 'Ben'), (3, 'Cem');
AT TIMESTAMP '2024-01-10 09:00:00';
INSERT INTO rate VALUES (1, 2000, DATE '2024-01-01', DATE '2025-01-01'),
  (2, 1800, DATE '2024-01-01', DATE '2025-01-01');
AT TIMESTAMP '2024-04-12 09:00:00';
START TRANSACTION;
UPDATE rate FOR PORTION OF valid FROM DATE '2024-03-01' TO DATE '2025-01-01' SET cents = 2200 WHERE employee = 1;
DELETE FROM rate FOR PORTION OF valid FROM DATE '2024-03-01' TO DATE '2025-01-01' WHERE employee = 2;
INSERT INTO rate VALUES (3, 1900, DATE '2024-03-01', DATE '2025-01-01');
COMMIT;
SELECT s.name, o.cents AS march, n.cents AS today
  FROM staff s
  LEFT JOIN rate FOR SYSTEM_TIME AS OF TIMESTAMP '2024-03-31 12:00:00' o
    ON o.employee = s.employee AND o.valid CONTAINS DATE '2024-03-15'
  LEFT JOIN rate n ON n.employee = s.employee AND n.valid CONTAINS DATE '2024-03-15';
