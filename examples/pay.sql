-- cases: in-turn
-- An auditor asks: what did the pay slip of March say, and what is right? (the script of the README)
CREATE TABLE pay (employee INTEGER, cents INTEGER, because VARCHAR(40), since DATE, until DATE,
  known_from TIMESTAMP GENERATED ALWAYS AS ROW START, known_to TIMESTAMP GENERATED ALWAYS AS ROW END,
  PERIOD FOR valid (since, until),                     -- application time: when it is true
  PERIOD FOR SYSTEM_TIME (known_from, known_to),       -- system time: when the database knew it
  PRIMARY KEY (employee, valid WITHOUT OVERLAPS)) WITH SYSTEM VERSIONING;

AT TIMESTAMP '2024-01-10 09:00:00';
INSERT INTO pay VALUES (1, 250000, 'rate of 2024', DATE '2024-01-01', DATE '2025-01-01');
AT TIMESTAMP '2024-04-12 09:00:00';    -- in April the office learns of a rise from March on
UPDATE pay FOR PORTION OF valid FROM DATE '2024-03-01' TO DATE '2025-01-01'
  SET cents = 265000, because = 'rise, announced in April' WHERE employee = 1;

-- What the pay slip of March said, and what is right:
SELECT cents, because FROM pay FOR SYSTEM_TIME AS OF TIMESTAMP '2024-03-31 12:00:00'
  WHERE valid CONTAINS DATE '2024-03-15';
SELECT cents, because FROM pay WHERE valid CONTAINS DATE '2024-03-15';
