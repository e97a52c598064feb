-- cases: in-turn
-- An insurer asks: is there a policy behind each cover on every day, and one premium a day for each policy?
CREATE TABLE policy (number INTEGER, cents INTEGER NOT NULL, runs_from DATE, runs_to DATE,
  PERIOD FOR runs (runs_from, runs_to), PRIMARY KEY (number, runs WITHOUT OVERLAPS));
CREATE TABLE cover (number INTEGER NOT NULL, risk VARCHAR(10), covered_from DATE, covered_to DATE,
  PERIOD FOR covered (covered_from, covered_to),
  FOREIGN KEY (number, PERIOD covered) REFERENCES policy (number, PERIOD runs));

-- A policy of two years, whose premium rises, and a cover that reaches into both.
INSERT INTO policy VALUES (1, 30000, DATE '2011-01-01', DATE '2012-01-01'), (1, 31500, DATE '2012-01-01', DATE '2013-01-01');
INSERT INTO cover VALUES (1, 'storm', DATE '2011-06-01', DATE '2012-06-01');

-- A second premium for days that have one, and a cover of one day more than the policy.
INSERT INTO policy VALUES (1, 29000, DATE '2011-12-31', DATE '2012-02-01');
INSERT INTO cover VALUES (1, 'fire', DATE '2012-12-01', DATE '2013-01-02');

-- The policy does not end while a cover needs it. The cover is shortened, and then it ends.
DELETE FROM policy FOR PORTION OF runs FROM DATE '2012-04-01' TO DATE '2013-01-01';
DELETE FROM cover FOR PORTION OF covered FROM DATE '2012-04-01' TO DATE '2013-01-01';
DELETE FROM policy FOR PORTION OF runs FROM DATE '2012-04-01' TO DATE '2013-01-01';
SELECT * FROM policy;
SELECT * FROM cover;
