-- cases: growths in-turn
-- What no `;` ends is refused (E12), also where only that is missing. By hand from docs/LANGUAGE.md.
CREATE TABLE log (x INTEGER, s TIMESTAMP GENERATED ALWAYS AS ROW START,
  e TIMESTAMP GENERATED ALWAYS AS ROW END,
  PERIOD FOR SYSTEM_TIME (s, e)) WITH SYSTEM VERSIONING;
AT TIMESTAMP '2011-01-01 00:00:00'