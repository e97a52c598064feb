-- An auditor asks: do all pages of my report tell of one moment, though the office goes on writing between them?
-- The report takes the morning; meanwhile a claim comes in, a reserve is corrected, and old history is to go.
CREATE TABLE claim (number INTEGER, cents INTEGER, known_from TIMESTAMP GENERATED ALWAYS AS ROW START,
  known_to TIMESTAMP GENERATED ALWAYS AS ROW END, PERIOD FOR SYSTEM_TIME (known_from, known_to),
  PRIMARY KEY (number)) WITH SYSTEM VERSIONING;
AT TIMESTAMP '2011-06-01 09:00:00'; INSERT INTO claim VALUES (1, 50000), (2, 80000);
AT TIMESTAMP '2011-06-20 09:00:00'; UPDATE claim SET cents = 90000 WHERE number = 2;
OPEN READER report;
-- page one: how much is held in reserve?
READ report SELECT COUNT(*) AS claims, SUM(cents) AS cents FROM claim;
AT TIMESTAMP '2011-06-30 10:00:00'; INSERT INTO claim VALUES (3, 70000);
START TRANSACTION; UPDATE claim SET cents = 40000 WHERE number = 1;
-- page two, while the office is in the middle of a correction: the same claims, and they add up to page one
READ report SELECT number, cents, known_from, known_to FROM claim;
COMMIT;
-- what a reader still sees is not let go
PRUNE HISTORY BEFORE TIMESTAMP '2011-06-25 00:00:00';
-- page three: what was thought of these claims before they were last changed?
READ report SELECT number, cents, known_to FROM claim FOR SYSTEM_TIME AS OF TIMESTAMP '2011-06-10 00:00:00';
CLOSE READER report;
-- the report is done, and everybody sees the books as they are
PRUNE HISTORY BEFORE TIMESTAMP '2011-06-25 00:00:00';
SELECT number, cents FROM claim;
