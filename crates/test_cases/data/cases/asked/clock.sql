-- What does AT do, and why are rows without it of the year 0001?
-- The text was written by hand from docs/LANGUAGE.md.
CREATE TABLE log (x INTEGER, s TIMESTAMP GENERATED ALWAYS AS ROW START, e TIMESTAMP GENERATED ALWAYS AS ROW END,
  PERIOD FOR SYSTEM_TIME (s, e)) WITH SYSTEM VERSIONING;
INSERT INTO log VALUES (1);                 -- the clock begins at 0001-01-01 00:00:00,
INSERT INTO log VALUES (2);                 -- and each commit moves it by one microsecond
AT TIMESTAMP '2024-01-10 09:00:00';         -- the moment of the next transaction
INSERT INTO log VALUES (3);
START TRANSACTION; INSERT INTO log VALUES (4); INSERT INTO log VALUES (5); COMMIT;    -- one moment for both
AT TIMESTAMP '2024-01-10 09:00:00';         -- time does not run backwards
AT TIMESTAMP '2024-01-11 09:00:00';
SELECT x, s FROM log;
