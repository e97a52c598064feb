-- cases: in-turn
-- An insurer asks: which claims did the office know at half past nine, and what came in later?
CREATE TABLE claim (
  number BIGINT NOT NULL,
  holder VARCHAR(20) NOT NULL,
  "what happened" VARCHAR(60),
  day DATE,
  reported TIMESTAMP(0),
  cents INTEGER,
  known_from TIMESTAMP GENERATED ALWAYS AS ROW START,
  known_to TIMESTAMP GENERATED ALWAYS AS ROW END,
  PERIOD FOR SYSTEM_TIME (known_from, known_to)
) WITH SYSTEM VERSIONING;

-- The names of the offices are not versioned.
CREATE TABLE office (code INTEGER NOT NULL, town VARCHAR(20));
INSERT INTO office VALUES (7, 'Zürich'), (9, NULL);

-- Two claims on the third of May; of one the sum is not known yet.
AT TIMESTAMP '2011-05-03 09:00:00';
INSERT INTO claim VALUES
  (501, 'O''Brien', 'hail on the roof', DATE '2011-05-01', TIMESTAMP '2011-05-03 08:15:00', 125000),
  (502, 'Ames', NULL, DATE '2011-05-02', TIMESTAMP '2011-05-03 08:40:30.5', NULL);

-- A third comes by telephone: only some columns are named.
AT TIMESTAMP '2011-05-03 10:30:00';
INSERT INTO claim (holder, number, "what happened") VALUES ('Baker', 503, 'window broken, 3 panes');

-- Mistakes change nothing: a holder left out, the wrong kind, no such day, a name too long.
INSERT INTO claim (number) VALUES (504);
INSERT INTO claim (number, holder, day) VALUES (504, 'Cole', '2011-05-02');
INSERT INTO claim (number, holder, day) VALUES (504, 'Cole', DATE '2011-02-29');
INSERT INTO claim (number, holder) VALUES (504, 'a name of more than twenty letters');
INSERT INTO claim (number, holder, known_from) VALUES (504, 'Cole', TIMESTAMP '2011-05-03 00:00:00');

-- What the office knew at half past nine, what it knows now, and the offices.
SELECT * FROM claim FOR SYSTEM_TIME AS OF TIMESTAMP '2011-05-03 09:30:00';
SELECT * FROM claim;
SELECT * FROM office;
SELECT * FROM office FOR SYSTEM_TIME AS OF TIMESTAMP '2011-05-03 09:30:00';
