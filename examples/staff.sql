-- cases: in-turn
-- A payroll office asks: is each rate one of somebody who works here, the only one of its day, and within reason?
CREATE TABLE staff (employee INTEGER, name VARCHAR(20) NOT NULL, PRIMARY KEY (employee));
CREATE TABLE rate (employee INTEGER, cents INTEGER NOT NULL, holds_from DATE, holds_to DATE,
  known_from TIMESTAMP GENERATED ALWAYS AS ROW START, known_to TIMESTAMP GENERATED ALWAYS AS ROW END,
  PERIOD FOR holds (holds_from, holds_to), PERIOD FOR SYSTEM_TIME (known_from, known_to),
  PRIMARY KEY (employee, holds WITHOUT OVERLAPS), FOREIGN KEY (employee) REFERENCES staff (employee),
  CONSTRAINT fair CHECK (cents BETWEEN 1200 AND 9000)) WITH SYSTEM VERSIONING;
CREATE TABLE slip (employee INTEGER, month INTEGER, hours INTEGER NOT NULL, PRIMARY KEY (employee, month),
  FOREIGN KEY (employee) REFERENCES staff (employee), CHECK (month > 201012 AND hours >= 0));

AT TIMESTAMP '2011-01-03 09:00:00';
INSERT INTO staff VALUES (1, 'Ada'), (2, 'Bob');
INSERT INTO rate VALUES (1, 2000, DATE '2011-01-01', DATE '2012-01-01'), (2, 1900, DATE '2011-01-01', DATE '2012-01-01');

-- A clerk's mistakes: a rate of nobody, a second one from July on, and a nought too many.
INSERT INTO rate VALUES (3, 1800, DATE '2011-01-01', DATE '2012-01-01');
INSERT INTO rate VALUES (1, 2100, DATE '2011-07-01', DATE '2012-01-01');
UPDATE rate FOR PORTION OF holds FROM DATE '2011-07-01' TO DATE '2012-01-01' SET cents = 21000 WHERE employee = 1;

-- The rise as it is meant, and the slips of July; Bob's comes twice, and then somebody takes Bob off the list.
AT TIMESTAMP '2011-06-20 10:00:00';
UPDATE rate FOR PORTION OF holds FROM DATE '2011-07-01' TO DATE '2012-01-01' SET cents = 2100 WHERE employee = 1;
INSERT INTO slip VALUES (1, 201107, 160), (2, 201107, 152);
INSERT INTO slip VALUES (2, 201107, 8);
DELETE FROM staff WHERE employee = 2;

-- What is paid for July.
SELECT name, hours * cents AS pay FROM slip s JOIN staff t ON t.employee = s.employee JOIN rate r ON r.employee = s.employee
  WHERE month = 201107 AND holds CONTAINS DATE '2011-07-31';
