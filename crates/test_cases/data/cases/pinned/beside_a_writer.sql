-- cases: growths
-- A reader sees what was committed when it was opened: no open transaction, no ROW END made later. While it is open no
-- table comes or goes, and nothing that it sees is pruned. By hand.
CREATE TABLE log (x INTEGER, s TIMESTAMP GENERATED ALWAYS AS ROW START, e TIMESTAMP GENERATED ALWAYS AS ROW END,
  PERIOD FOR SYSTEM_TIME (s, e)) WITH SYSTEM VERSIONING;
AT TIMESTAMP '2011-01-01 00:00:00';
INSERT INTO log VALUES (7);
OPEN READER r;
START TRANSACTION;
DELETE FROM log;
READ r SELECT * FROM log;
COMMIT;
READ r SELECT * FROM log;
CREATE TABLE z (x INTEGER);
PRUNE HISTORY BEFORE TIMESTAMP '2011-01-02 00:00:00';
CLOSE READER r;
READ r SELECT * FROM log;
