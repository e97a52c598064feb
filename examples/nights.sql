-- cases: in-turn
-- A payroll office asks: who is paid what on which day, after a higher rate for some months of nights, and what did we think before?
CREATE TABLE rates (employee INTEGER, cents INTEGER, because VARCHAR(20), holds_from DATE, holds_to DATE,
  known_from TIMESTAMP GENERATED ALWAYS AS ROW START, known_to TIMESTAMP GENERATED ALWAYS AS ROW END,
  PERIOD FOR holds (holds_from, holds_to), PERIOD FOR SYSTEM_TIME (known_from, known_to)) WITH SYSTEM VERSIONING;

-- The year begins.
AT TIMESTAMP '2011-01-03 09:00:00';
INSERT INTO rates VALUES (1, 2000, 'rate of 2011', DATE '2011-01-01', DATE '2012-01-01'),
  (2, 1900, 'rate of 2011', DATE '2011-01-01', DATE '2012-01-01');

-- One works nights from April to June.
AT TIMESTAMP '2011-03-28 14:00:00';
UPDATE rates FOR PORTION OF holds FROM DATE '2011-04-01' TO DATE '2011-07-01'
  SET cents = cents + 300, because = 'nights' WHERE employee = 1;

-- The other leaves at the end of September.
AT TIMESTAMP '2011-09-30 17:00:00';
DELETE FROM rates FOR PORTION OF holds FROM DATE '2011-10-01' TO DATE '2012-01-01' WHERE employee = 2;

-- A clerk's mistake changes nothing.
UPDATE rates FOR PORTION OF holds FROM DATE '2011-07-01' TO DATE '2011-04-01' SET cents = 0;

-- The rates as they stand, and which of them held on 1 May, as it stands now and as the office thought on 15 March.
SELECT employee, cents, because, holds_from, holds_to FROM rates;
SELECT employee, cents FROM rates WHERE holds CONTAINS DATE '2011-05-01';
SELECT employee, cents FROM rates FOR SYSTEM_TIME AS OF TIMESTAMP '2011-03-15 12:00:00'
  WHERE holds CONTAINS DATE '2011-05-01';
