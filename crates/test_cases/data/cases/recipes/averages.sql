-- What is the average pay, who is above it, and who are the first three?
-- The text was checked by hand against docs/LANGUAGE.md.
CREATE TABLE pay (employee INTEGER, team VARCHAR(10), cents INTEGER, PRIMARY KEY (employee));
INSERT INTO pay VALUES (1, 'north', 250000), (2, 'north', 198050), (3, 'south', 310000), (4, 'south', 310000), (5, 'south', 87500),
  (6, 'north', NULL);
-- The average is SUM and COUNT of the same column, divided outside: COUNT(*) would count the NULL.
SELECT team, SUM(cents) AS cents, COUNT(cents) AS people FROM pay GROUP BY team;
-- Above the average of the team, without a division: cents > total / people is cents * people > total.
CREATE TABLE total (team VARCHAR(10), cents INTEGER, people INTEGER, PRIMARY KEY (team));
INSERT INTO total SELECT team, SUM(cents), COUNT(cents) FROM pay GROUP BY team;
SELECT p.employee, p.cents FROM pay p JOIN total t ON t.team = p.team WHERE p.cents * t.people > t.cents;
-- The first three by place. The employee's number breaks ties. The cost: one step for each pair of rows.
SELECT a.employee, a.cents, COUNT(*) AS place
  FROM pay a JOIN pay b ON b.cents > a.cents OR b.cents = a.cents AND b.employee <= a.employee
  GROUP BY a.employee, a.cents HAVING COUNT(*) <= 3 ORDER BY place;
-- Cheaper for a few: the greatest, then the greatest below it; one pass each.
CREATE TABLE best (place INTEGER, cents INTEGER, PRIMARY KEY (place));
INSERT INTO best SELECT 1, MAX(cents) FROM pay;
INSERT INTO best SELECT 2, MAX(p.cents) FROM best b, pay p WHERE b.place = 1 AND p.cents < b.cents;
INSERT INTO best SELECT 3, MAX(p.cents) FROM best b, pay p WHERE b.place = 2 AND p.cents < b.cents;
SELECT b.place, p.employee, p.cents FROM best b JOIN pay p ON p.cents = b.cents;
