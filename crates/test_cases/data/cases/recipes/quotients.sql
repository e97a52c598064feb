-- Can a report divide? Whole numbers, by a table of the numbers from 0 to 999: the thousands of the quotient first, then the rest.
-- The text was checked by hand against docs/LANGUAGE.md.
CREATE TABLE number (n INTEGER, PRIMARY KEY (n));
INSERT INTO number VALUES (0), (1), (2), (3), (4), (5), (6), (7), (8), (9);
CREATE TABLE hundred (n INTEGER, PRIMARY KEY (n));
INSERT INTO hundred SELECT a.n * 100 + b.n * 10 + c.n FROM number a, number b, number c;
CREATE TABLE total (team VARCHAR(10), cents INTEGER, people INTEGER, PRIMARY KEY (team));
INSERT INTO total VALUES ('north', 448050, 2), ('south', 707500, 3), ('west', -707500, 3);
CREATE TABLE thousands (team VARCHAR(10), n INTEGER, PRIMARY KEY (team));
INSERT INTO thousands SELECT t.team, MAX(h.n) FROM total t JOIN hundred h ON h.n * 1000 * t.people <= t.cents GROUP BY t.team;
SELECT t.team, MAX(k.n * 1000 + h.n) AS average, t.cents - t.people * MAX(k.n * 1000 + h.n) AS rest
  FROM total t JOIN thousands k ON k.team = t.team JOIN hundred h ON (k.n * 1000 + h.n) * t.people <= t.cents
  GROUP BY t.team, t.cents, t.people;
