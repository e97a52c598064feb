-- cases: growths in-turn
-- A query of nine references or more is refused by its width (E15), also in an INSERT; so it is in a check. By hand from docs/LANGUAGE.md.
CREATE TABLE log (x INTEGER, s TIMESTAMP GENERATED ALWAYS AS ROW START, e TIMESTAMP GENERATED ALWAYS AS ROW END,
  PERIOD FOR SYSTEM_TIME (s, e)) WITH SYSTEM VERSIONING;
CREATE TABLE note (k INTEGER);
SELECT * FROM log, log a, log b, log c, log d, log e, log f, log g, log h;
SELECT x FROM log, log a, log b, log c, log d, log e, log f, log g, log h WHERE a.x = b.x;
SELECT * FROM log, log a, log b, log c, log d, log e, log f, log g, log h, log i, log j;
INSERT INTO log SELECT * FROM log, log a, log b, log c, log d, log e, log f, log g, log h;
SELECT * FROM log, log a, log b, log c, log d, log e, log f, log g, log h CROSS JOIN note;
