-- How is a month closed, so that its report stays and its days cannot be changed by mistake?
-- The text was checked by hand against docs/LANGUAGE.md.
CREATE TABLE rate (employee INTEGER, cents INTEGER, since DATE, until DATE, PERIOD FOR valid (since, until),
  known_from TIMESTAMP GENERATED ALWAYS AS ROW START, known_to TIMESTAMP GENERATED ALWAYS AS ROW END,
  PERIOD FOR SYSTEM_TIME (known_from, known_to), PRIMARY KEY (employee, valid WITHOUT OVERLAPS),
  UNIQUE (employee, cents, valid WITHOUT OVERLAPS)) WITH SYSTEM VERSIONING;
-- Which month was closed when.
CREATE TABLE closed (label VARCHAR(7), day DATE, moment TIMESTAMP, PRIMARY KEY (label));
-- The held days. The reference includes the value, so each change of a value on these days is refused.
CREATE TABLE held (label VARCHAR(7), employee INTEGER, cents INTEGER, since DATE, until DATE, PERIOD FOR valid (since, until),
  CONSTRAINT month_is_closed FOREIGN KEY (employee, cents, PERIOD valid) REFERENCES rate (employee, cents, PERIOD valid));
AT TIMESTAMP '2024-01-10 09:00:00';
INSERT INTO rate VALUES (1, 2000, DATE '2024-01-01', DATE '2025-01-01'), (2, 1800, DATE '2024-03-11', DATE '2025-01-01');
-- 1. A moment that stays: it is written down, and every later report asks AS OF it.
AT TIMESTAMP '2024-03-31 18:00:00';
INSERT INTO closed VALUES ('2024-03', DATE '2024-03-31', TIMESTAMP '2024-03-31 18:00:00');
-- 2. The days are held. A row that covers the whole month, begins in it, ends in it, lies in it: four cases.
START TRANSACTION;
INSERT INTO held SELECT '2024-03', employee, cents, DATE '2024-03-01', DATE '2024-04-01' FROM rate
  WHERE since <= DATE '2024-03-01' AND until >= DATE '2024-04-01';
INSERT INTO held SELECT '2024-03', employee, cents, since, DATE '2024-04-01' FROM rate
  WHERE since > DATE '2024-03-01' AND since < DATE '2024-04-01' AND until >= DATE '2024-04-01';
INSERT INTO held SELECT '2024-03', employee, cents, DATE '2024-03-01', until FROM rate
  WHERE since <= DATE '2024-03-01' AND until > DATE '2024-03-01' AND until < DATE '2024-04-01';
INSERT INTO held SELECT '2024-03', employee, cents, since, until FROM rate
  WHERE since > DATE '2024-03-01' AND until < DATE '2024-04-01';
COMMIT;
AT TIMESTAMP '2024-04-12 09:00:00';
-- Days of March cannot be changed; days from April on can.
UPDATE rate FOR PORTION OF valid FROM DATE '2024-03-16' TO DATE '2025-01-01' SET cents = 2200 WHERE employee = 1;
DELETE FROM rate WHERE employee = 2;
UPDATE rate FOR PORTION OF valid FROM DATE '2024-04-01' TO DATE '2025-01-01' SET cents = 2200 WHERE employee = 1;
-- What it does not stop: new rows on days of March that had none, and a change that leaves the value.
INSERT INTO rate VALUES (3, 1500, DATE '2024-03-01', DATE '2025-01-01');
UPDATE rate FOR PORTION OF valid FROM DATE '2024-03-10' TO DATE '2024-03-20' SET cents = 2000 WHERE employee = 1;
-- Opening it again is an act of its own.
START TRANSACTION;
DELETE FROM held WHERE label = '2024-03' AND employee = 1;
UPDATE rate FOR PORTION OF valid FROM DATE '2024-03-16' TO DATE '2024-04-01' SET cents = 2200 WHERE employee = 1;
INSERT INTO held VALUES ('2024-03', 1, 2000, DATE '2024-03-01', DATE '2024-03-16'), ('2024-03', 1, 2200, DATE '2024-03-16', DATE '2024-04-01');
COMMIT;
-- The report of March, as it was closed, and the corrections of days of March since.
SELECT employee, cents FROM rate FOR SYSTEM_TIME AS OF TIMESTAMP '2024-03-31 18:00:00' WHERE valid CONTAINS DATE '2024-03-31';
SELECT c.label, r.employee, r.cents, r.since, r.until, r.known_from
  FROM closed c JOIN rate r ON r.valid CONTAINS c.day WHERE r.known_from > c.moment;
-- 3. A reader is the moment of one run: it sees no later commit, and PRUNE and CREATE TABLE wait for it.
OPEN READER march;
UPDATE rate FOR PORTION OF valid FROM DATE '2024-05-01' TO DATE '2025-01-01' SET cents = 1 WHERE employee = 2;
READ march SELECT employee, cents FROM rate WHERE valid CONTAINS DATE '2024-06-01';
PRUNE HISTORY BEFORE TIMESTAMP '2024-12-31 00:00:00';
CLOSE READER march;
-- After a PRUNE past it, the moment of March is gone. A closed month that must stay is copied into a table.
CREATE TABLE march (employee INTEGER, cents INTEGER, since DATE, until DATE);
INSERT INTO march SELECT employee, cents, since, until FROM rate FOR SYSTEM_TIME AS OF TIMESTAMP '2024-03-31 18:00:00';
PRUNE HISTORY BEFORE TIMESTAMP '2024-12-31 00:00:00';
SELECT employee FROM rate FOR SYSTEM_TIME AS OF TIMESTAMP '2024-03-31 18:00:00';
SELECT employee, cents FROM march;
