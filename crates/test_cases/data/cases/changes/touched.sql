-- cases: in-turn
-- Only the rows of which WHERE is true are changed; an UPDATE makes a new version also where no value differs; one that touches none is a commit all the same. By hand from docs/LANGUAGE.md.
CREATE TABLE log (x INTEGER, s TIMESTAMP GENERATED ALWAYS AS ROW START, e TIMESTAMP GENERATED ALWAYS AS ROW END,
  PERIOD FOR SYSTEM_TIME (s, e)) WITH SYSTEM VERSIONING;
AT TIMESTAMP '2011-01-01 00:00:00';
INSERT INTO log VALUES (1), (2);
UPDATE log SET x = x WHERE e = TIMESTAMP '9999-12-31 23:59:59.999999' AND x IN (2, 3);
UPDATE log SET x = 9 WHERE x IS NULL;
INSERT INTO log VALUES (3);
SELECT * FROM log;
