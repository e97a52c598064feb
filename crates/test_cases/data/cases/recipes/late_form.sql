-- What if a form arrives late, and later changes are in the books already?
-- The text was checked by hand against docs/LANGUAGE.md.
CREATE TABLE rate (employee INTEGER, cents INTEGER, signed DATE, since DATE, until DATE, PERIOD FOR valid (since, until),
  known_from TIMESTAMP GENERATED ALWAYS AS ROW START, known_to TIMESTAMP GENERATED ALWAYS AS ROW END,
  PERIOD FOR SYSTEM_TIME (known_from, known_to), PRIMARY KEY (employee, valid WITHOUT OVERLAPS)) WITH SYSTEM VERSIONING;
AT TIMESTAMP '2024-01-10 09:00:00';
INSERT INTO rate VALUES (1, 2000, DATE '2023-12-15', DATE '2024-01-01', DATE '2025-01-01'),
  (2, 2000, DATE '2023-12-15', DATE '2024-01-01', DATE '2025-01-01'), (3, 2000, DATE '2023-12-15', DATE '2024-01-01', DATE '2025-01-01');
AT TIMESTAMP '2024-06-03 09:00:00';      -- a rise from June on is known
UPDATE rate FOR PORTION OF valid FROM DATE '2024-06-01' TO DATE '2025-01-01' SET cents = 2300, signed = DATE '2024-05-20';
-- On 12 July a form of February arrives: 2100 from March on. AT cannot go back to February ..
AT TIMESTAMP '2024-02-20 09:00:00';
AT TIMESTAMP '2024-07-12 09:00:00';
-- .. wrong for employee 1: to the end of the year, it wipes out the rise of June;
UPDATE rate FOR PORTION OF valid FROM DATE '2024-03-01' TO DATE '2025-01-01' SET cents = 2100, signed = DATE '2024-02-20' WHERE employee = 1;
-- right for employee 2: to the next change that was signed later. Look first;
SELECT MIN(since) AS next_change FROM rate WHERE employee = 2 AND since > DATE '2024-03-01' AND signed > DATE '2024-02-20';
UPDATE rate FOR PORTION OF valid FROM DATE '2024-03-01' TO DATE '2024-06-01' SET cents = 2100, signed = DATE '2024-02-20' WHERE employee = 2;
-- or, without looking: all later days, but only rows signed before it. WHERE sees the rows as they were.
UPDATE rate FOR PORTION OF valid FROM DATE '2024-03-01' TO DATE '2025-01-01'
  SET cents = 2100, signed = DATE '2024-02-20' WHERE employee = 3 AND signed < DATE '2024-02-20';
SELECT employee, cents, signed, since, until FROM rate;
-- A rise by an amount instead of to an amount stands on what is there, now and later.
UPDATE rate FOR PORTION OF valid FROM DATE '2024-03-01' TO DATE '2025-01-01' SET cents = cents + 50 WHERE employee = 3;
SELECT employee, cents, since, until FROM rate WHERE employee = 3;
-- A late hire, for days that are partly there: refused whole, with the row and its days ..
INSERT INTO rate VALUES (1, 1900, DATE '2023-12-01', DATE '2023-11-01', DATE '2024-02-01');
-- .. and in part: the days before the first one known.
SELECT MIN(since) AS known_since FROM rate WHERE employee = 1;
INSERT INTO rate VALUES (1, 1900, DATE '2023-12-01', DATE '2023-11-01', DATE '2024-01-01');
-- FOR PORTION OF changes what is there. Where nothing is, it does nothing and says 0.
UPDATE rate FOR PORTION OF valid FROM DATE '2025-01-01' TO DATE '2026-01-01' SET cents = 2400 WHERE employee = 1;
