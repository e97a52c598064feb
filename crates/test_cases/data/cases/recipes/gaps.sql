-- Which days does no policy cover?
-- The text was written by hand from docs/LANGUAGE.md.
CREATE TABLE policy (number INTEGER, starts DATE, ends DATE, PERIOD FOR runs (starts, ends),
  PRIMARY KEY (number, runs WITHOUT OVERLAPS));
INSERT INTO policy VALUES
  (1, DATE '2024-01-01', DATE '2024-04-01'), (1, DATE '2024-05-01', DATE '2024-09-01'),
  (1, DATE '2024-09-01', DATE '2025-01-01'),
  (2, DATE '2024-02-01', DATE '2024-07-01'), (2, DATE '2024-10-01', DATE '2025-01-01'),
  (3, DATE '2024-01-01', DATE '2024-08-01');
SELECT a.number, a.ends AS gap_from, MIN(b.starts) AS gap_to
  FROM policy a JOIN policy b ON b.number = a.number AND a.runs PRECEDES b.runs
  GROUP BY a.number, a.ends HAVING a.ends < MIN(b.starts);
SELECT number, MIN(starts) AS first_day, MAX(ends) AS last_day FROM policy
  GROUP BY number HAVING MIN(starts) > DATE '2024-01-01' OR MAX(ends) < DATE '2025-01-01';
