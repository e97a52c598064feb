-- On which days does today's knowledge differ from that of 31 March? Changed, added and removed days in one list.
-- The text was checked by hand against docs/LANGUAGE.md.
CREATE TABLE rate (employee INTEGER, cents INTEGER, since DATE, until DATE, PERIOD FOR valid (since, until),
  known_from TIMESTAMP GENERATED ALWAYS AS ROW START, known_to TIMESTAMP GENERATED ALWAYS AS ROW END,
  PERIOD FOR SYSTEM_TIME (known_from, known_to), PRIMARY KEY (employee, valid WITHOUT OVERLAPS)) WITH SYSTEM VERSIONING;
AT TIMESTAMP '2024-01-10 09:00:00';
INSERT INTO rate VALUES (1, 2000, DATE '2024-01-01', DATE '2025-01-01'), (2, 1800, DATE '2024-01-01', DATE '2025-01-01'),
  (4, 1700, DATE '2024-01-01', DATE '2025-01-01');
AT TIMESTAMP '2024-04-12 09:00:00';
UPDATE rate FOR PORTION OF valid FROM DATE '2024-03-01' TO DATE '2024-09-01' SET cents = 2200 WHERE employee = 1;
UPDATE rate FOR PORTION OF valid FROM DATE '2024-06-01' TO DATE '2024-07-01' SET cents = 2000 WHERE employee = 1;
DELETE FROM rate FOR PORTION OF valid FROM DATE '2024-10-01' TO DATE '2025-01-01' WHERE employee = 2;
INSERT INTO rate VALUES (3, 1900, DATE '2024-03-01', DATE '2024-05-01');
UPDATE rate FOR PORTION OF valid FROM DATE '2024-05-01' TO DATE '2024-06-01' SET cents = 1700 WHERE employee = 4;   -- changes nothing
-- The days on which a row of either moment begins or ends, then the two answers from each such day to the next.
CREATE TABLE point (employee INTEGER, day DATE);
INSERT INTO point SELECT employee, since FROM rate FOR SYSTEM_TIME AS OF TIMESTAMP '2024-03-31 18:00:00';
INSERT INTO point SELECT employee, until FROM rate FOR SYSTEM_TIME AS OF TIMESTAMP '2024-03-31 18:00:00';
INSERT INTO point SELECT employee, since FROM rate;
INSERT INTO point SELECT employee, until FROM rate;
CREATE TABLE stretch (employee INTEGER, first DATE, next DATE, PERIOD FOR span (first, next), PRIMARY KEY (employee, span WITHOUT OVERLAPS));
INSERT INTO stretch SELECT a.employee, a.day, MIN(b.day) FROM point a JOIN point b ON b.employee = a.employee AND b.day > a.day
  GROUP BY a.employee, a.day;
SELECT s.employee, s.first, s.next, o.cents AS was, n.cents AS is_now
  FROM stretch s
  LEFT JOIN rate FOR SYSTEM_TIME AS OF TIMESTAMP '2024-03-31 18:00:00' o ON o.employee = s.employee AND o.valid CONTAINS s.first
  LEFT JOIN rate n ON n.employee = s.employee AND n.valid CONTAINS s.first
  WHERE o.cents <> n.cents OR o.employee IS NULL AND n.employee IS NOT NULL OR o.employee IS NOT NULL AND n.employee IS NULL;
