-- How is a column added, with the history kept? The CREATE in the script of the books has the column `grade` now, and the script is replayed.
-- The text was checked by hand against docs/LANGUAGE.md.
CREATE TABLE rate (employee INTEGER, cents INTEGER, grade VARCHAR(4), since DATE, until DATE, PERIOD FOR valid (since, until),
  known_from TIMESTAMP GENERATED ALWAYS AS ROW START, known_to TIMESTAMP GENERATED ALWAYS AS ROW END,
  PERIOD FOR SYSTEM_TIME (known_from, known_to), PRIMARY KEY (employee, valid WITHOUT OVERLAPS)) WITH SYSTEM VERSIONING;
AT TIMESTAMP '2024-01-10 09:00:00';
-- An INSERT without a list of columns has a value too few.
INSERT INTO rate VALUES (2, 1800, DATE '2024-01-01', DATE '2025-01-01');
-- With a list it goes on working: the new column is NULL.
INSERT INTO rate (employee, cents, since, until) VALUES (1, 2000, DATE '2024-01-01', DATE '2025-01-01');
AT TIMESTAMP '2024-04-12 09:00:00';
UPDATE rate FOR PORTION OF valid FROM DATE '2024-03-01' TO DATE '2025-01-01' SET cents = 2200 WHERE employee = 1;
-- What follows is new: a value is known from today on, and the old versions keep NULL.
AT TIMESTAMP '2024-09-01 09:00:00';
UPDATE rate SET grade = 'B2' WHERE employee = 1;
SELECT cents, grade, since, until, known_from FROM rate;
SELECT cents, grade, since, until, known_from FROM rate FOR SYSTEM_TIME AS OF TIMESTAMP '2024-08-31 00:00:00';
