-- Who has nothing on some day?
-- The text was written by hand from docs/LANGUAGE.md.
CREATE TABLE rate (employee INTEGER, cents INTEGER, since DATE, until DATE, PERIOD FOR valid (since, until),
  known_from TIMESTAMP GENERATED ALWAYS AS ROW START, known_to TIMESTAMP GENERATED ALWAYS AS ROW END,
  PERIOD FOR SYSTEM_TIME (known_from, known_to), PRIMARY KEY (employee, valid WITHOUT OVERLAPS)) WITH SYSTEM VERSIONING;
AT TIMESTAMP '2024-01-10 09:00:00';    -- the rates of the year are recorded
INSERT INTO rate VALUES (1, 2000, DATE '2024-01-01', DATE '2025-01-01'),
  (2, 1800, DATE '2024-01-01', DATE '2025-01-01');
AT TIMESTAMP '2024-05-20 09:00:00';    -- we learn of a rise from April on
UPDATE rate FOR PORTION OF valid FROM DATE '2024-04-01' TO DATE '2025-01-01' SET cents = 2200 WHERE employee = 1;
AT TIMESTAMP '2024-07-01 09:00:00';    -- employee 2 left at the end of June
DELETE FROM rate FOR PORTION OF valid FROM DATE '2024-07-01' TO DATE '2025-01-01' WHERE employee = 2;

CREATE TABLE staff (employee INTEGER, name VARCHAR(20), PRIMARY KEY (employee));
INSERT INTO staff VALUES (1, 'Ada'), (2, 'Ben'), (3, 'Cem');
SELECT s.employee, s.name FROM staff s
  LEFT JOIN rate r ON r.employee = s.employee AND r.valid CONTAINS DATE '2024-08-15'
  WHERE r.employee IS NULL;
