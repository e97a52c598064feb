-- How is a wrong correction undone, and nothing else?
-- The text was checked by hand against docs/LANGUAGE.md.
CREATE TABLE rate (employee INTEGER, cents INTEGER, since DATE, until DATE, PERIOD FOR valid (since, until),
  known_from TIMESTAMP GENERATED ALWAYS AS ROW START, known_to TIMESTAMP GENERATED ALWAYS AS ROW END,
  PERIOD FOR SYSTEM_TIME (known_from, known_to), PRIMARY KEY (employee, valid WITHOUT OVERLAPS)) WITH SYSTEM VERSIONING;
AT TIMESTAMP '2024-01-10 09:00:00';
INSERT INTO rate VALUES (1, 2000, DATE '2024-01-01', DATE '2024-07-01'), (1, 2050, DATE '2024-07-01', DATE '2025-01-01'),
  (2, 1800, DATE '2024-01-01', DATE '2025-01-01');
AT TIMESTAMP '2024-04-12 09:00:00';      -- the rise of employee 2 is booked for employee 1, from March on
UPDATE rate FOR PORTION OF valid FROM DATE '2024-03-01' TO DATE '2025-01-01' SET cents = 2200 WHERE employee = 1;
-- Which versions did that commit write, and which did it end?
SELECT employee, cents, since, until FROM rate FOR SYSTEM_TIME AS OF TIMESTAMP '2024-04-12 09:00:00'
  WHERE known_from = TIMESTAMP '2024-04-12 09:00:00';
SELECT employee, cents, since, until
  FROM rate FOR SYSTEM_TIME BETWEEN TIMESTAMP '0001-01-01 00:00:00' AND TIMESTAMP '9999-12-31 23:59:59.999999'
  WHERE known_to = TIMESTAMP '2024-04-12 09:00:00';

-- The undo of all rows of employee 1, with the moment before the mistake.
AT TIMESTAMP '2024-05-02 09:00:00';
START TRANSACTION;
DELETE FROM rate WHERE employee = 1;
INSERT INTO rate SELECT employee, cents, since, until
  FROM rate FOR SYSTEM_TIME AS OF TIMESTAMP '2024-04-12 08:59:59.999999' WHERE employee = 1;
COMMIT;
SELECT cents, since, until, known_from FROM rate WHERE employee = 1;
-- Nothing is hidden: what was known in between stays.
SELECT cents, since, until FROM rate FOR SYSTEM_TIME AS OF TIMESTAMP '2024-04-30 00:00:00' WHERE employee = 1;

-- The trap: a right correction made after the mistake would be lost with it. Then undo the days of the mistake alone.
AT TIMESTAMP '2024-06-03 09:00:00';      -- a second mistake, for August
UPDATE rate FOR PORTION OF valid FROM DATE '2024-06-15' TO DATE '2024-08-15' SET cents = 9999 WHERE employee = 1;
AT TIMESTAMP '2024-06-04 09:00:00';      -- and a right correction after it, for November
UPDATE rate FOR PORTION OF valid FROM DATE '2024-11-01' TO DATE '2024-12-01' SET cents = 2100 WHERE employee = 1;
AT TIMESTAMP '2024-06-05 09:00:00';      -- the rows before the mistake, cut to its days: inside, over the left end, over the right, over both
START TRANSACTION;
DELETE FROM rate FOR PORTION OF valid FROM DATE '2024-06-15' TO DATE '2024-08-15' WHERE employee = 1;
INSERT INTO rate SELECT employee, cents, since, until FROM rate FOR SYSTEM_TIME AS OF TIMESTAMP '2024-06-03 08:59:59.999999'
  WHERE employee = 1 AND PERIOD (DATE '2024-06-15', DATE '2024-08-15') CONTAINS valid;
INSERT INTO rate SELECT employee, cents, DATE '2024-06-15', until FROM rate FOR SYSTEM_TIME AS OF TIMESTAMP '2024-06-03 08:59:59.999999'
  WHERE employee = 1 AND since < DATE '2024-06-15' AND until > DATE '2024-06-15' AND until <= DATE '2024-08-15';
INSERT INTO rate SELECT employee, cents, since, DATE '2024-08-15' FROM rate FOR SYSTEM_TIME AS OF TIMESTAMP '2024-06-03 08:59:59.999999'
  WHERE employee = 1 AND since >= DATE '2024-06-15' AND since < DATE '2024-08-15' AND until > DATE '2024-08-15';
INSERT INTO rate SELECT employee, cents, DATE '2024-06-15', DATE '2024-08-15'
  FROM rate FOR SYSTEM_TIME AS OF TIMESTAMP '2024-06-03 08:59:59.999999'
  WHERE employee = 1 AND since < DATE '2024-06-15' AND until > DATE '2024-08-15';
COMMIT;
SELECT cents, since, until FROM rate WHERE employee = 1;
