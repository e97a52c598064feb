-- cases: in-turn
-- An insurer asks: which house was covered on the day of the storm, and did the office know so when the claim came in?
CREATE TABLE policy (
  number INTEGER NOT NULL,
  house VARCHAR(30) NOT NULL,
  cents INTEGER NOT NULL,
  covered_from DATE,
  covered_to DATE,     -- the first day without cover
  known_from TIMESTAMP GENERATED ALWAYS AS ROW START,
  known_to TIMESTAMP GENERATED ALWAYS AS ROW END,
  PERIOD FOR cover (covered_from, covered_to),
  PERIOD FOR SYSTEM_TIME (known_from, known_to)
) WITH SYSTEM VERSIONING;

AT TIMESTAMP '2011-01-10 09:00:00';
INSERT INTO policy VALUES
  (1, 'Harbour Street 4', 30000, DATE '2011-01-01', DATE '2012-01-01'),
  (2, 'Mill Lane 11', 24000, DATE '2011-02-01', DATE '2011-06-15'),
  (3, 'Church Square 2', 41000, DATE '2011-07-01', DATE '2012-07-01');

-- A clerk's mistakes change nothing: a cover that ends before it begins, one without an end, one of a single day that is none.
INSERT INTO policy VALUES (4, 'Mill Lane 12', 24000, DATE '2011-06-15', DATE '2011-02-01');
INSERT INTO policy VALUES (4, 'Mill Lane 12', 24000, DATE '2011-06-15', NULL);
INSERT INTO policy VALUES (4, 'Mill Lane 12', 24000, DATE '2011-06-15', DATE '2011-06-15');

-- The storm came on the 15th of June. Mill Lane's cover ended with the 14th.
SELECT number, house FROM policy WHERE cover CONTAINS DATE '2011-06-15';

-- In August a renewal of Mill Lane turns up that was signed in May.
AT TIMESTAMP '2011-08-02 14:00:00';
UPDATE policy SET covered_to = DATE '2012-02-01' WHERE number = 2;

-- Covered on that day as we know it now, and as the office knew it when the claims came in, in June.
SELECT number, house FROM policy WHERE cover CONTAINS DATE '2011-06-15';
SELECT number, house FROM policy FOR SYSTEM_TIME AS OF TIMESTAMP '2011-06-20 12:00:00' WHERE cover CONTAINS DATE '2011-06-15';

-- Whose cover lies within the year 2011, whose reaches into the second half, and whose begins on the day after some other's end?
SELECT house FROM policy WHERE PERIOD (DATE '2011-01-01', DATE '2012-01-01') CONTAINS cover;
SELECT house, covered_from, covered_to FROM policy WHERE cover OVERLAPS PERIOD (DATE '2011-07-01', DATE '2012-01-01');
SELECT house FROM policy WHERE cover IMMEDIATELY SUCCEEDS PERIOD (DATE '2011-01-01', DATE '2011-07-01');
