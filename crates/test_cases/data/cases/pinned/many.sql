-- cases: growths
-- Two readers with pins of their own: closing one leaves the other; a name that was closed is free, and opened anew it sees what has come
-- since. Readers outlive COMMIT and ROLLBACK, and none of their statements is a commit. By hand.
CREATE TABLE log (x INTEGER, s TIMESTAMP GENERATED ALWAYS AS ROW START, e TIMESTAMP GENERATED ALWAYS AS ROW END,
  PERIOD FOR SYSTEM_TIME (s, e)) WITH SYSTEM VERSIONING;
AT TIMESTAMP '2011-01-01 00:00:00'; INSERT INTO log VALUES (1);
OPEN READER a;
INSERT INTO log VALUES (2);
START TRANSACTION; INSERT INTO log VALUES (3); OPEN READER b; OPEN READER c; CLOSE READER c; READ b SELECT x FROM log; ROLLBACK;
READ a SELECT x FROM log;
READ b SELECT x FROM log;
CLOSE READER a;
READ b SELECT x FROM log;
READ a SELECT x FROM log;
START TRANSACTION; DELETE FROM log WHERE x = 1; COMMIT;
OPEN READER a;
READ a SELECT x, s FROM log;
READ b SELECT x, s FROM log;
CLOSE READER b; CLOSE READER a; CLOSE READER a;
SELECT x, s FROM log;
