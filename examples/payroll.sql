-- cases: in-turn
-- A payroll office asks: what had each run of March paid, and what did we know before it?
CREATE TABLE pay (
  employee INTEGER,
  month INTEGER,     -- as 201103
  cents INTEGER,
  known_from TIMESTAMP GENERATED ALWAYS AS ROW START,
  known_to TIMESTAMP GENERATED ALWAYS AS ROW END,
  PERIOD FOR SYSTEM_TIME (known_from, known_to)
) WITH SYSTEM VERSIONING;

-- The first run of March.
AT TIMESTAMP '2011-03-31 18:00:00';
INSERT INTO pay VALUES (1, 201103, 250000), (2, 201103, 198050);

-- An hour later somebody was forgotten, and somebody is paid back.
AT TIMESTAMP '2011-03-31 19:00:00';
INSERT INTO pay VALUES (3, 201103, 87500);
INSERT INTO pay VALUES (2, 201103, -1050);

-- A clerk's mistakes change nothing.
INSERT INTO pay VALUES (4, 201103);
INSERT INTO wages VALUES (4, 201103, 1);
AT TIMESTAMP '2011-03-31 18:30:00';

-- What the payroll knew before the first run, after it, between the two commits of the second, and at the end.
SELECT * FROM pay FOR SYSTEM_TIME AS OF TIMESTAMP '2011-03-31 17:59:59.999999';
SELECT * FROM pay FOR SYSTEM_TIME AS OF TIMESTAMP '2011-03-31 18:00:00';
SELECT * FROM pay FOR SYSTEM_TIME AS OF TIMESTAMP '2011-03-31 19:00:00';
SELECT * FROM pay FOR SYSTEM_TIME AS OF TIMESTAMP '2011-04-01 00:00:00';
