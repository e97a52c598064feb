-- cases: in-turn
-- An auditor asks: what did we believe on 31 March, and why did the pay slip say so?
CREATE TABLE pay (employee INTEGER, cents INTEGER, because VARCHAR(40),
  known_from TIMESTAMP GENERATED ALWAYS AS ROW START, known_to TIMESTAMP GENERATED ALWAYS AS ROW END,
  PERIOD FOR SYSTEM_TIME (known_from, known_to)) WITH SYSTEM VERSIONING;
AT TIMESTAMP '2011-03-25 18:00:00';    -- the pay slips of March are written
INSERT INTO pay VALUES (1, 250000, 'rate of 2010');
AT TIMESTAMP '2011-04-12 09:00:00';    -- the rise is heard of, and the row replaced
START TRANSACTION; DELETE FROM pay; INSERT INTO pay VALUES (1, 265000, 'rate of 2011, told on 11 April'); COMMIT;
SELECT * FROM pay FOR SYSTEM_TIME AS OF TIMESTAMP '2011-03-31 12:00:00';
SELECT * FROM pay;
