-- cases: in-turn
-- A payroll office asks: whose rate was raised in April, what did the slips of March still say of them, and what is their pay of a year now?
CREATE TABLE pay (employee INTEGER NOT NULL, grade VARCHAR(2), cents INTEGER,
  known_from TIMESTAMP GENERATED ALWAYS AS ROW START, known_to TIMESTAMP GENERATED ALWAYS AS ROW END,
  PERIOD FOR SYSTEM_TIME (known_from, known_to)) WITH SYSTEM VERSIONING;
AT TIMESTAMP '2011-03-25 18:00:00';    -- the pay slips of March are written
INSERT INTO pay VALUES (1, 'B', 250000), (2, 'B', 262000), (3, 'C', 310000);
AT TIMESTAMP '2011-04-12 09:00:00';    -- grade B gets 3,500 cents more, and employee 2 becomes a C
START TRANSACTION;
UPDATE pay SET cents = cents + 3500 WHERE grade = 'B';
UPDATE pay SET grade = 'C' WHERE employee = 2;
COMMIT;
-- what the slips of March said of those who have another row now
SELECT employee, cents FROM pay FOR SYSTEM_TIME AS OF TIMESTAMP '2011-03-31 12:00:00'
  WHERE known_to < TIMESTAMP '9999-12-31 23:59:59.999999';
-- and what the books say of them today
SELECT employee, grade, cents * 12 AS yearly FROM pay p WHERE p.known_from >= TIMESTAMP '2011-04-01 00:00:00';
