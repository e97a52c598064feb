-- cases: in-turn
-- An auditor asks: the pay slip of 25 March says 1,600.00; which rate and hours did the office know then, and what has come since?
CREATE TABLE rate (employee INTEGER NOT NULL, since DATE NOT NULL, cents_an_hour INTEGER NOT NULL,
  known_from TIMESTAMP GENERATED ALWAYS AS ROW START, known_to TIMESTAMP GENERATED ALWAYS AS ROW END,
  PERIOD FOR SYSTEM_TIME (known_from, known_to)) WITH SYSTEM VERSIONING;
CREATE TABLE worked (employee INTEGER NOT NULL, month DATE NOT NULL, hours INTEGER NOT NULL,
  known_from TIMESTAMP GENERATED ALWAYS AS ROW START, known_to TIMESTAMP GENERATED ALWAYS AS ROW END,
  PERIOD FOR SYSTEM_TIME (known_from, known_to)) WITH SYSTEM VERSIONING;

-- A slip is printed once; its table keeps no history.
CREATE TABLE slip (employee INTEGER NOT NULL, printed DATE NOT NULL, cents INTEGER NOT NULL);

AT TIMESTAMP '2011-03-01 08:00:00';
INSERT INTO rate VALUES (1, DATE '2010-01-01', 2000);

-- Pay day: the hours are booked and the slip is printed, at one moment.
AT TIMESTAMP '2011-03-25 16:00:00';
START TRANSACTION;
INSERT INTO worked VALUES (1, DATE '2011-03-01', 80);
INSERT INTO slip VALUES (1, DATE '2011-03-25', 160000);
COMMIT;

-- In April a rise is told that counts from the first of March, and then three more hours.
AT TIMESTAMP '2011-04-08 10:00:00';
INSERT INTO rate VALUES (1, DATE '2011-03-01', 2100);
AT TIMESTAMP '2011-04-11 09:30:00';
START TRANSACTION;
DELETE FROM worked;
INSERT INTO worked VALUES (1, DATE '2011-03-01', 83);
COMMIT;

-- The slip, and why it said so: 80 hours at 20.00 were known when it was printed.
SELECT * FROM slip;
SELECT * FROM rate FOR SYSTEM_TIME AS OF TIMESTAMP '2011-03-25 16:00:00';
SELECT * FROM worked FOR SYSTEM_TIME AS OF TIMESTAMP '2011-03-25 16:00:00';

-- What has come since: each row that was known at some moment from then to the end of April.
SELECT * FROM rate FOR SYSTEM_TIME BETWEEN TIMESTAMP '2011-03-25 16:00:00' AND TIMESTAMP '2011-04-30 23:59:59';
SELECT * FROM worked FOR SYSTEM_TIME BETWEEN TIMESTAMP '2011-03-25 16:00:00' AND TIMESTAMP '2011-04-30 23:59:59';

-- The past of the slips cannot be asked for.
SELECT * FROM slip FOR SYSTEM_TIME AS OF TIMESTAMP '2011-03-25 16:00:00';
