-- cases: growths
-- Each growth is refused in turn: questions with items, headings, texts and WHERE, of the past and of now, some of them refused. By hand from docs/LANGUAGE.md.
CREATE TABLE log (x INTEGER, c VARCHAR(9), s TIMESTAMP GENERATED ALWAYS AS ROW START, e TIMESTAMP GENERATED ALWAYS AS ROW END,
  PERIOD FOR SYSTEM_TIME (s, e)) WITH SYSTEM VERSIONING;
AT TIMESTAMP '2011-01-01 00:00:00';
INSERT INTO log VALUES (1, 'one'), (2, 'two');
UPDATE log SET c = 'zwei' WHERE x = 2;
SELECT c, x + 1, 'text' AS "A text", x FROM log a WHERE a.x IN (2, 3) AND c <> 'two';
SELECT c FROM log FOR SYSTEM_TIME AS OF TIMESTAMP '2011-01-01 00:00:00' WHERE c > 'p';
SELECT x + 9223372036854775807 FROM log;
SELECT y FROM log;
SELECT * FROM log FOR SYSTEM_TIME BETWEEN TIMESTAMP '2011-01-01 00:00:00' AND TIMESTAMP '2012-01-01 00:00:00' WHERE x = 2;
