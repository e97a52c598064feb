-- What did the claims of each year of damage cost, as known at the end of each year? (a run-off triangle)
-- The text was checked by hand against docs/LANGUAGE.md.
CREATE TABLE claim (id INTEGER, day DATE, cents INTEGER,
  known_from TIMESTAMP GENERATED ALWAYS AS ROW START, known_to TIMESTAMP GENERATED ALWAYS AS ROW END,
  PERIOD FOR SYSTEM_TIME (known_from, known_to), PRIMARY KEY (id)) WITH SYSTEM VERSIONING;
CREATE TABLE year (damage INTEGER, first DATE, next DATE, PERIOD FOR span (first, next), PRIMARY KEY (damage));
CREATE TABLE seen (at_end_of INTEGER, moment TIMESTAMP, PRIMARY KEY (at_end_of));
INSERT INTO year VALUES (2021, DATE '2021-01-01', DATE '2022-01-01'), (2022, DATE '2022-01-01', DATE '2023-01-01'),
  (2023, DATE '2023-01-01', DATE '2024-01-01');
INSERT INTO seen VALUES (2021, TIMESTAMP '2021-12-31 23:59:59'), (2022, TIMESTAMP '2022-12-31 23:59:59'), (2023, TIMESTAMP '2023-12-31 23:59:59');
AT TIMESTAMP '2021-03-10 09:00:00';
INSERT INTO claim VALUES (1, DATE '2021-03-01', 500000), (2, DATE '2021-03-05', 20000);
AT TIMESTAMP '2022-02-01 09:00:00';      -- reported late: damage of December
INSERT INTO claim VALUES (3, DATE '2021-12-20', 80000), (4, DATE '2022-01-15', 300000);
AT TIMESTAMP '2022-06-01 09:00:00';      -- the estimate of claim 1 rises
UPDATE claim SET cents = 650000 WHERE id = 1;
AT TIMESTAMP '2023-05-01 09:00:00';      -- claim 2 was no claim, claim 4 costs less, a new one
DELETE FROM claim WHERE id = 2;
UPDATE claim SET cents = 250000 WHERE id = 4;
INSERT INTO claim VALUES (5, DATE '2023-04-30', 90000);
SELECT y.damage, s.at_end_of, COUNT(*) AS claims, SUM(c.cents) AS cents
  FROM seen s JOIN claim FOR SYSTEM_TIME BETWEEN TIMESTAMP '0001-01-01 00:00:00' AND TIMESTAMP '9999-12-31 23:59:59.999999' c
    ON c.SYSTEM_TIME CONTAINS s.moment
  JOIN year y ON y.span CONTAINS c.day
  GROUP BY y.damage, s.at_end_of;
-- What each year of damage has gained or lost from one end of a year to the next.
SELECT y.damage, a.at_end_of AS from_end_of, SUM(n.cents - o.cents) AS changed_estimates
  FROM seen a JOIN seen b ON b.at_end_of = a.at_end_of + 1
  JOIN claim FOR SYSTEM_TIME BETWEEN TIMESTAMP '0001-01-01 00:00:00' AND TIMESTAMP '9999-12-31 23:59:59.999999' o ON o.SYSTEM_TIME CONTAINS a.moment
  JOIN claim FOR SYSTEM_TIME BETWEEN TIMESTAMP '0001-01-01 00:00:00' AND TIMESTAMP '9999-12-31 23:59:59.999999' n
    ON n.id = o.id AND n.SYSTEM_TIME CONTAINS b.moment
  JOIN year y ON y.span CONTAINS o.day
  GROUP BY y.damage, a.at_end_of;
