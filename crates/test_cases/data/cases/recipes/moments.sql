-- For a list of days and moments: what was valid on each day, as it was known at the moment?
-- The text was checked by hand against docs/LANGUAGE.md.
CREATE TABLE rate (employee INTEGER, cents INTEGER, since DATE, until DATE, PERIOD FOR valid (since, until),
  known_from TIMESTAMP GENERATED ALWAYS AS ROW START, known_to TIMESTAMP GENERATED ALWAYS AS ROW END,
  PERIOD FOR SYSTEM_TIME (known_from, known_to), PRIMARY KEY (employee, valid WITHOUT OVERLAPS)) WITH SYSTEM VERSIONING;
CREATE TABLE asked (slip VARCHAR(10), day DATE, moment TIMESTAMP, PRIMARY KEY (slip));
CREATE TABLE staff (employee INTEGER, PRIMARY KEY (employee));
INSERT INTO staff VALUES (1), (2);
AT TIMESTAMP '2024-01-10 09:00:00';
INSERT INTO rate VALUES (1, 2000, DATE '2024-01-01', DATE '2025-01-01');
AT TIMESTAMP '2024-03-20 09:00:00';
INSERT INTO rate VALUES (2, 1800, DATE '2024-03-01', DATE '2025-01-01');
AT TIMESTAMP '2024-04-12 09:00:00';
UPDATE rate FOR PORTION OF valid FROM DATE '2024-02-01' TO DATE '2025-01-01' SET cents = 2200 WHERE employee = 1;
AT TIMESTAMP '2024-05-02 09:00:00';
UPDATE rate FOR PORTION OF valid FROM DATE '2024-02-01' TO DATE '2024-03-01' SET cents = 2000 WHERE employee = 1;

-- The list: each slip, its day, and the moment at which it was printed. One row for one crossing of a day and a moment.
INSERT INTO asked VALUES ('Jan', DATE '2024-01-31', TIMESTAMP '2024-01-31 18:00:00'),
  ('Feb', DATE '2024-02-29', TIMESTAMP '2024-02-29 18:00:00'), ('Mar', DATE '2024-03-31', TIMESTAMP '2024-03-31 18:00:00'),
  ('Apr', DATE '2024-04-30', TIMESTAMP '2024-04-30 18:00:00'), ('Feb again', DATE '2024-02-29', TIMESTAMP '2024-05-31 18:00:00');
-- AS OF takes one literal. A list of moments is a join of all versions with SYSTEM_TIME CONTAINS.
SELECT a.day, a.slip, s.employee, r.cents
  FROM asked a CROSS JOIN staff s
  LEFT JOIN rate FOR SYSTEM_TIME BETWEEN TIMESTAMP '0001-01-01 00:00:00' AND TIMESTAMP '9999-12-31 23:59:59.999999' r
    ON r.employee = s.employee AND r.valid CONTAINS a.day AND r.SYSTEM_TIME CONTAINS a.moment;
-- One line of it, by AS OF.
SELECT employee, cents FROM rate FOR SYSTEM_TIME AS OF TIMESTAMP '2024-04-30 18:00:00' WHERE valid CONTAINS DATE '2024-04-30';
-- What each slip said, and what is known now, where the two differ. A missing one needs two lists: <> says nothing of NULL.
SELECT a.slip, o.employee, o.cents AS said, n.cents AS right_now
  FROM asked a
  JOIN rate FOR SYSTEM_TIME BETWEEN TIMESTAMP '0001-01-01 00:00:00' AND TIMESTAMP '9999-12-31 23:59:59.999999' o
    ON o.valid CONTAINS a.day AND o.SYSTEM_TIME CONTAINS a.moment
  JOIN rate n ON n.employee = o.employee AND n.valid CONTAINS a.day
  WHERE o.cents <> n.cents;
-- The highest moment is no moment of a row: a current row ends there. Ask for now without a clause.
SELECT COUNT(*) AS rows_at_high FROM rate FOR SYSTEM_TIME AS OF TIMESTAMP '9999-12-31 23:59:59.999999';
SELECT COUNT(*) AS rows_just_before FROM rate FOR SYSTEM_TIME AS OF TIMESTAMP '9999-12-31 23:59:59.999998';
