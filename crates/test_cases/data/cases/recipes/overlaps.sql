-- Where does a person have no cover, and where several, over contracts that may overlap?
-- The text was checked by hand against docs/LANGUAGE.md.
CREATE TABLE contract (no INTEGER, person INTEGER, starts DATE, ends DATE, PERIOD FOR runs (starts, ends), PRIMARY KEY (no));
INSERT INTO contract VALUES
  (1, 1, DATE '2024-01-01', DATE '2024-04-01'), (2, 1, DATE '2024-03-01', DATE '2024-06-01'), (3, 1, DATE '2024-03-15', DATE '2024-04-15'),
  (4, 1, DATE '2024-08-01', DATE '2025-01-01'), (5, 1, DATE '2024-02-01', DATE '2024-02-10'),
  (6, 2, DATE '2024-02-01', DATE '2024-07-01'), (7, 2, DATE '2024-07-01', DATE '2024-10-01'), (8, 2, DATE '2024-07-01', DATE '2024-10-01');
CREATE TABLE person (person INTEGER, first DATE, next DATE, PERIOD FOR span (first, next), PRIMARY KEY (person));  -- the days in question
INSERT INTO person VALUES (1, DATE '2024-01-01', DATE '2025-01-01'), (2, DATE '2024-01-01', DATE '2025-01-01'),
  (3, DATE '2024-01-01', DATE '2025-01-01');
-- Gaps: they begin where a contract ends and none covers that day, and where the span begins uncovered. They end at the next start.
CREATE TABLE gap (person INTEGER, gap_from DATE, PRIMARY KEY (person, gap_from));
INSERT INTO gap SELECT DISTINCT p.person, a.ends FROM person p JOIN contract a ON a.person = p.person AND p.span CONTAINS a.ends
  LEFT JOIN contract b ON b.person = a.person AND b.runs CONTAINS a.ends WHERE b.no IS NULL AND a.ends > p.first;
INSERT INTO gap SELECT p.person, p.first FROM person p
  LEFT JOIN contract b ON b.person = p.person AND b.runs CONTAINS p.first WHERE b.no IS NULL;
SELECT g.person, g.gap_from, MIN(c.starts) AS gap_to_next, p.next AS or_to
  FROM gap g JOIN person p ON p.person = g.person LEFT JOIN contract c ON c.person = g.person AND c.starts > g.gap_from AND c.starts < p.next
  GROUP BY g.person, g.gap_from, p.next;
-- Pairs that overlap; the days they share begin at the later start and end at the earlier end (MAX and MIN over the two).
SELECT a.person, a.no AS one, b.no AS other, MAX(s.starts) AS both_from, MIN(s.ends) AS both_to
  FROM contract a JOIN contract b ON b.person = a.person AND b.no > a.no AND a.runs OVERLAPS b.runs
    JOIN contract s ON s.person = a.person
  WHERE s.no = a.no OR s.no = b.no GROUP BY a.person, a.no, b.no;
-- How many at once, at most: the number is greatest on a day on which one starts.
CREATE TABLE depth (person INTEGER, day DATE, contracts INTEGER);
INSERT INTO depth SELECT DISTINCT a.person, a.starts, COUNT(*)
  FROM contract a JOIN contract b ON b.person = a.person AND b.runs CONTAINS a.starts GROUP BY a.no, a.person, a.starts;
SELECT person, MAX(contracts) AS at_once FROM depth GROUP BY person;
SELECT person, day, contracts FROM depth WHERE contracts > 1;
-- Days covered by at least one contract, as stretches: from a start that no other contract reaches to the next gap.
SELECT f.person, f.starts AS covered_from, MIN(l.ends) AS covered_to
  FROM contract f LEFT JOIN contract p ON p.person = f.person AND p.starts < f.starts AND p.ends >= f.starts,
    contract l LEFT JOIN contract n ON n.person = l.person AND n.starts <= l.ends AND n.ends > l.ends
  WHERE p.no IS NULL AND n.no IS NULL AND l.person = f.person AND l.ends > f.starts GROUP BY f.person, f.starts;
