-- cases: in-turn
-- No transaction begins at the highest moment (E41), whatever else is wrong; a question is answered. By hand from docs/LANGUAGE.md.
CREATE TABLE log (x INTEGER, s TIMESTAMP GENERATED ALWAYS AS ROW START,
  e TIMESTAMP GENERATED ALWAYS AS ROW END,
  PERIOD FOR SYSTEM_TIME (s, e)) WITH SYSTEM VERSIONING;
AT TIMESTAMP '2011-01-01 00:00:00';
AT TIMESTAMP '9999-12-31 23:59:59.999999'; START TRANSACTION; DELETE FROM log; DELETE FROM nowhere;
INSERT INTO nowhere VALUES (1); SELECT * FROM log;
