-- The numbers of refusals, each with statements that give it.
-- The text was written by hand from docs/LANGUAGE.md.
CREATE TABLE staff (employee INTEGER, name VARCHAR(10) NOT NULL, PRIMARY KEY (employee));
CREATE TABLE rate (employee INTEGER, cents INTEGER, since DATE, until DATE, PERIOD FOR valid (since, until),
  known_from TIMESTAMP GENERATED ALWAYS AS ROW START, known_to TIMESTAMP GENERATED ALWAYS AS ROW END,
  PERIOD FOR SYSTEM_TIME (known_from, known_to), PRIMARY KEY (employee, valid WITHOUT OVERLAPS),
  FOREIGN KEY (employee) REFERENCES staff (employee), CHECK (cents > 0)) WITH SYSTEM VERSIONING;
AT TIMESTAMP '2024-01-10 09:00:00';
INSERT INTO staff VALUES (1, 'Ada'), (2, 'Ben');
INSERT INTO rate VALUES (1, 2000, DATE '2024-01-01', DATE '2025-01-01');

SELECT name FROM staff LIMIT 1;
SELECT sum FROM staff;

SELECT a.name FROM staff a, staff b, staff c, staff d, staff e, staff f, staff g, staff h, staff i;

SELECT name FROM employees;
CREATE TABLE staff (employee INTEGER);

SELECT nam FROM staff;
SELECT employee FROM staff JOIN rate ON staff.employee = rate.employee;

INSERT INTO staff VALUES ('3', 'Cem');
INSERT INTO staff VALUES (3);
SELECT cents FROM rate WHERE since = '2024-01-01';

SELECT employee, SUM(cents) FROM rate;
UPDATE rate SET known_from = TIMESTAMP '2024-01-01 00:00:00';
SELECT name FROM staff FOR SYSTEM_TIME AS OF TIMESTAMP '2024-01-31 00:00:00';

DROP TABLE staff;

INSERT INTO staff VALUES (3, 'Christopher');
SELECT name FROM staff WHERE employee * 9223372036854775807 > 0;
AT TIMESTAMP '2024-02-30 09:00:00';

DELETE FROM rate FOR PORTION OF valid FROM DATE '2024-07-01' TO DATE '2024-07-01';

INSERT INTO staff (employee) VALUES (3);

INSERT INTO rate VALUES (2, 1800, DATE '2024-07-01', DATE '2024-01-01');

INSERT INTO rate VALUES (2, 0, DATE '2024-01-01', DATE '2025-01-01');

INSERT INTO rate VALUES (1, 2100, DATE '2024-07-01', DATE '2025-07-01');

INSERT INTO rate VALUES (3, 1800, DATE '2024-01-01', DATE '2025-01-01');
DELETE FROM staff WHERE employee = 1;

COMMIT;
START TRANSACTION;
CREATE TABLE bonus (employee INTEGER, cents INTEGER);
ROLLBACK;

AT TIMESTAMP '2024-01-01 00:00:00';

PRUNE HISTORY BEFORE TIMESTAMP '2024-01-10 00:00:00';
SELECT cents FROM rate FOR SYSTEM_TIME AS OF TIMESTAMP '2024-01-05 00:00:00';

READ report SELECT cents FROM rate;

OPEN READER report;
DROP TABLE rate;
CLOSE READER report;
