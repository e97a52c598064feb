-- What is owed for each month, if the rate changes inside a month?
-- The text was checked by hand against docs/LANGUAGE.md.
CREATE TABLE month (label VARCHAR(7), first DATE, next DATE, days INTEGER, PERIOD FOR span (first, next), PRIMARY KEY (label));
CREATE TABLE day (day DATE, n INTEGER, PRIMARY KEY (day));     -- n counts the days; one day more than the calendar has
CREATE TABLE loan (loan INTEGER, cents INTEGER, since DATE, until DATE, PERIOD FOR owed (since, until),
  known_from TIMESTAMP GENERATED ALWAYS AS ROW START, known_to TIMESTAMP GENERATED ALWAYS AS ROW END,
  PERIOD FOR SYSTEM_TIME (known_from, known_to), PRIMARY KEY (loan, owed WITHOUT OVERLAPS)) WITH SYSTEM VERSIONING;
CREATE TABLE paid (loan INTEGER, day DATE, cents INTEGER, PRIMARY KEY (loan, day));
INSERT INTO month VALUES ('2024-01', DATE '2024-01-01', DATE '2024-02-01', 31),
  ('2024-02', DATE '2024-02-01', DATE '2024-03-01', 29), ('2024-03', DATE '2024-03-01', DATE '2024-04-01', 31);
INSERT INTO day VALUES
  (DATE '2024-01-01', 1), (DATE '2024-01-02', 2), (DATE '2024-01-03', 3), (DATE '2024-01-04', 4), (DATE '2024-01-05', 5),
  (DATE '2024-01-06', 6), (DATE '2024-01-07', 7), (DATE '2024-01-08', 8), (DATE '2024-01-09', 9), (DATE '2024-01-10', 10),
  (DATE '2024-01-11', 11), (DATE '2024-01-12', 12), (DATE '2024-01-13', 13), (DATE '2024-01-14', 14), (DATE '2024-01-15', 15),
  (DATE '2024-01-16', 16), (DATE '2024-01-17', 17), (DATE '2024-01-18', 18), (DATE '2024-01-19', 19), (DATE '2024-01-20', 20),
  (DATE '2024-01-21', 21), (DATE '2024-01-22', 22), (DATE '2024-01-23', 23), (DATE '2024-01-24', 24), (DATE '2024-01-25', 25),
  (DATE '2024-01-26', 26), (DATE '2024-01-27', 27), (DATE '2024-01-28', 28), (DATE '2024-01-29', 29), (DATE '2024-01-30', 30),
  (DATE '2024-01-31', 31), (DATE '2024-02-01', 32), (DATE '2024-02-02', 33), (DATE '2024-02-03', 34), (DATE '2024-02-04', 35),
  (DATE '2024-02-05', 36), (DATE '2024-02-06', 37), (DATE '2024-02-07', 38), (DATE '2024-02-08', 39), (DATE '2024-02-09', 40),
  (DATE '2024-02-10', 41), (DATE '2024-02-11', 42), (DATE '2024-02-12', 43), (DATE '2024-02-13', 44), (DATE '2024-02-14', 45),
  (DATE '2024-02-15', 46), (DATE '2024-02-16', 47), (DATE '2024-02-17', 48), (DATE '2024-02-18', 49), (DATE '2024-02-19', 50),
  (DATE '2024-02-20', 51), (DATE '2024-02-21', 52), (DATE '2024-02-22', 53), (DATE '2024-02-23', 54), (DATE '2024-02-24', 55),
  (DATE '2024-02-25', 56), (DATE '2024-02-26', 57), (DATE '2024-02-27', 58), (DATE '2024-02-28', 59), (DATE '2024-02-29', 60),
  (DATE '2024-03-01', 61), (DATE '2024-03-02', 62), (DATE '2024-03-03', 63), (DATE '2024-03-04', 64), (DATE '2024-03-05', 65),
  (DATE '2024-03-06', 66), (DATE '2024-03-07', 67), (DATE '2024-03-08', 68), (DATE '2024-03-09', 69), (DATE '2024-03-10', 70),
  (DATE '2024-03-11', 71), (DATE '2024-03-12', 72), (DATE '2024-03-13', 73), (DATE '2024-03-14', 74), (DATE '2024-03-15', 75),
  (DATE '2024-03-16', 76), (DATE '2024-03-17', 77), (DATE '2024-03-18', 78), (DATE '2024-03-19', 79), (DATE '2024-03-20', 80),
  (DATE '2024-03-21', 81), (DATE '2024-03-22', 82), (DATE '2024-03-23', 83), (DATE '2024-03-24', 84), (DATE '2024-03-25', 85),
  (DATE '2024-03-26', 86), (DATE '2024-03-27', 87), (DATE '2024-03-28', 88), (DATE '2024-03-29', 89), (DATE '2024-03-30', 90),
  (DATE '2024-03-31', 91), (DATE '2024-04-01', 92);
AT TIMESTAMP '2024-01-02 09:00:00';      -- cents of interest a day
INSERT INTO loan VALUES (1, 100, DATE '2024-01-10', DATE '9999-12-31'), (2, 250, DATE '2023-06-01', DATE '2024-02-20');
AT TIMESTAMP '2024-03-05 09:00:00';      -- the rate of loan 1 changed in the middle of February
UPDATE loan FOR PORTION OF owed FROM DATE '2024-02-15' TO DATE '9999-12-31' SET cents = 110 WHERE loan = 1;
INSERT INTO paid VALUES (1, DATE '2024-01-31', 2000), (1, DATE '2024-02-29', 3000), (1, DATE '2024-03-01', 50), (2, DATE '2024-02-01', 900);

-- 1. What falls on a day: the month that contains it.
SELECT m.label, COUNT(*) AS payments, SUM(p.cents) AS cents FROM paid p JOIN month m ON m.span CONTAINS p.day GROUP BY m.label;
-- Months without a payment too: begin with the calendar.
SELECT m.label, COUNT(p.day) AS payments, SUM(p.cents) AS cents
  FROM month m LEFT JOIN paid p ON m.span CONTAINS p.day AND p.loan = 2 GROUP BY m.label;

-- What the calendar does not have would be lost without a word: this list should be empty.
SELECT p.loan, p.day FROM paid p LEFT JOIN month m ON m.span CONTAINS p.day WHERE m.label IS NULL;

-- 2. What lasts: one row for each day, counted. Rates that change inside the month come out right.
SELECT l.loan, m.label, COUNT(*) AS days, SUM(l.cents) AS cents
  FROM loan l JOIN month m ON m.span OVERLAPS l.owed JOIN day d ON l.owed CONTAINS d.day
  WHERE m.span CONTAINS d.day GROUP BY l.loan, m.label;
-- The same as it was known at the end of February.
SELECT l.loan, m.label, COUNT(*) AS days, SUM(l.cents) AS cents
  FROM loan FOR SYSTEM_TIME AS OF TIMESTAMP '2024-02-29 18:00:00' l JOIN month m ON m.span OVERLAPS l.owed
    JOIN day d ON l.owed CONTAINS d.day
  WHERE m.span CONTAINS d.day AND l.loan = 1 GROUP BY l.loan, m.label;

-- 3. The same by numbers of days, without counting each: the later start and the earlier end, in four cases.
CREATE TABLE part (loan INTEGER, label VARCHAR(7), cents INTEGER, days INTEGER);
INSERT INTO part SELECT l.loan, m.label, l.cents, e.n - s.n FROM loan l JOIN month m ON m.span OVERLAPS l.owed
  JOIN day s ON s.day = l.since JOIN day e ON e.day = l.until WHERE l.since >= m.first AND l.until <= m.next;
INSERT INTO part SELECT l.loan, m.label, l.cents, e.n - s.n FROM loan l JOIN month m ON m.span OVERLAPS l.owed
  JOIN day s ON s.day = l.since JOIN day e ON e.day = m.next WHERE l.since >= m.first AND l.until > m.next;
INSERT INTO part SELECT l.loan, m.label, l.cents, e.n - s.n FROM loan l JOIN month m ON m.span OVERLAPS l.owed
  JOIN day s ON s.day = m.first JOIN day e ON e.day = l.until WHERE l.since < m.first AND l.until <= m.next;
INSERT INTO part SELECT l.loan, m.label, l.cents, e.n - s.n FROM loan l JOIN month m ON m.span OVERLAPS l.owed
  JOIN day s ON s.day = m.first JOIN day e ON e.day = m.next WHERE l.since < m.first AND l.until > m.next;
SELECT loan, label, SUM(days) AS days, SUM(days * cents) AS cents FROM part GROUP BY loan, label;

-- 4. A price for a whole month, in parts of it: the numerator here, the division outside (cent_days / days, rounded once).
SELECT p.loan, p.label, SUM(p.days * p.cents * 30) AS cent_days, m.days FROM part p JOIN month m ON m.label = p.label
  GROUP BY p.loan, p.label, m.days;
