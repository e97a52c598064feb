-- cases: in-turn
-- An insurer asks: what was held in reserve at the end of June, and what was corrected in July?
CREATE TABLE reserve (
  claim INTEGER,
  cents INTEGER,
  known_from TIMESTAMP GENERATED ALWAYS AS ROW START,
  known_to TIMESTAMP GENERATED ALWAYS AS ROW END,
  PERIOD FOR SYSTEM_TIME (known_from, known_to)
) WITH SYSTEM VERSIONING;

AT TIMESTAMP '2011-06-30 17:00:00';
INSERT INTO reserve VALUES (1, 400000), (2, 1250000);

-- A first try at new reserves is thrown away: nothing of it stays.
AT TIMESTAMP '2011-07-01 09:00:00';
START TRANSACTION;
DELETE FROM reserve;
INSERT INTO reserve VALUES (1, 1);
SELECT * FROM reserve;
ROLLBACK;

-- The second is kept. All of it is known from one moment on; the row that came and went in it leaves no trace.
START TRANSACTION;
INSERT INTO reserve VALUES (9, 9);
DELETE FROM reserve;
INSERT INTO reserve VALUES (1, 450000), (2, 1250000), (3, 90000);
COMMIT;

-- What is known now, what was known at the end of June, and every row known at some moment of July.
SELECT * FROM reserve;
SELECT * FROM reserve FOR SYSTEM_TIME AS OF TIMESTAMP '2011-06-30 23:59:59';
SELECT * FROM reserve FOR SYSTEM_TIME FROM TIMESTAMP '2011-07-01 00:00:00' TO TIMESTAMP '2011-08-01 00:00:00';

-- The moments between two questions: without the upper moment, and with it.
SELECT * FROM reserve FOR SYSTEM_TIME FROM TIMESTAMP '2011-06-01 00:00:00' TO TIMESTAMP '2011-06-30 17:00:00';
SELECT * FROM reserve FOR SYSTEM_TIME BETWEEN TIMESTAMP '2011-06-01 00:00:00' AND TIMESTAMP '2011-06-30 17:00:00';

-- No transaction is open: there is nothing to end.
COMMIT;
