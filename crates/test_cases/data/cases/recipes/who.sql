-- Who changed it, when and why?
-- The text was checked by hand against docs/LANGUAGE.md.
CREATE TABLE act (clerk VARCHAR(10), why VARCHAR(40), at_from TIMESTAMP GENERATED ALWAYS AS ROW START,
  at_to TIMESTAMP GENERATED ALWAYS AS ROW END, PERIOD FOR SYSTEM_TIME (at_from, at_to)) WITH SYSTEM VERSIONING;
CREATE TABLE rate (employee INTEGER, cents INTEGER, changed_by VARCHAR(10), since DATE, until DATE, PERIOD FOR valid (since, until),
  known_from TIMESTAMP GENERATED ALWAYS AS ROW START, known_to TIMESTAMP GENERATED ALWAYS AS ROW END,
  PERIOD FOR SYSTEM_TIME (known_from, known_to), PRIMARY KEY (employee, valid WITHOUT OVERLAPS)) WITH SYSTEM VERSIONING;
-- Each transaction writes one act: all that it does has the same moment.
AT TIMESTAMP '2024-01-10 09:00:00';
START TRANSACTION;
INSERT INTO act VALUES ('kim', 'rates of 2024');
INSERT INTO rate VALUES (1, 2000, 'kim', DATE '2024-01-01', DATE '2025-01-01'), (2, 1800, 'kim', DATE '2024-01-01', DATE '2025-01-01');
COMMIT;
AT TIMESTAMP '2024-04-12 09:00:00';
START TRANSACTION;
INSERT INTO act VALUES ('lee', 'rise from March on, letter 17');
UPDATE rate FOR PORTION OF valid FROM DATE '2024-03-01' TO DATE '2025-01-01' SET cents = 2200, changed_by = 'lee' WHERE employee = 1;
COMMIT;
AT TIMESTAMP '2024-05-02 09:00:00';
START TRANSACTION;
INSERT INTO act VALUES ('mia', 'employee 2 never came');
DELETE FROM rate WHERE employee = 2;
COMMIT;
AT TIMESTAMP '2024-05-03 09:00:00';      -- a change without an act
UPDATE rate SET cents = 2300 WHERE employee = 1 AND cents = 2200;

-- The trap: the column says that kim wrote the version of 12 April. It is the rest that lee's change left.
SELECT changed_by, cents, since, until, known_from FROM rate WHERE employee = 1;
-- Who wrote each version. Two acts of one transaction would each give a line.
SELECT a.clerk, a.why, r.employee, r.cents, r.since, r.until
  FROM act a
  JOIN rate FOR SYSTEM_TIME BETWEEN TIMESTAMP '0001-01-01 00:00:00' AND TIMESTAMP '9999-12-31 23:59:59.999999' r
    ON r.known_from = a.at_from;
-- Who ended each, deletions too.
SELECT a.clerk, a.why, r.employee, r.cents, r.since, r.until
  FROM act a
  JOIN rate FOR SYSTEM_TIME BETWEEN TIMESTAMP '0001-01-01 00:00:00' AND TIMESTAMP '9999-12-31 23:59:59.999999' r
    ON r.known_to = a.at_from;
-- What was written or ended without an act: these lists should be empty.
SELECT DISTINCT r.known_from AS without_act
  FROM rate FOR SYSTEM_TIME BETWEEN TIMESTAMP '0001-01-01 00:00:00' AND TIMESTAMP '9999-12-31 23:59:59.999999' r
    LEFT JOIN act a ON a.at_from = r.known_from WHERE a.clerk IS NULL;
SELECT DISTINCT r.known_to AS without_act
  FROM rate FOR SYSTEM_TIME BETWEEN TIMESTAMP '0001-01-01 00:00:00' AND TIMESTAMP '9999-12-31 23:59:59.999999' r
    LEFT JOIN act a ON a.at_from = r.known_to WHERE a.clerk IS NULL AND r.known_to < TIMESTAMP '9999-12-31 23:59:59.999999';
-- Moments with more than one act.
SELECT at_from, COUNT(*) AS acts FROM act GROUP BY at_from HAVING COUNT(*) > 1;
-- An act that was changed or deleted later, itself: this list should be empty.
SELECT clerk, at_from, at_to FROM act FOR SYSTEM_TIME BETWEEN TIMESTAMP '0001-01-01 00:00:00' AND TIMESTAMP '9999-12-31 23:59:59.999999'
  WHERE at_to < TIMESTAMP '9999-12-31 23:59:59.999999';
