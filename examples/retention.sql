-- A data protection officer asks: is gone what the house may no longer keep, and what does it still answer?
-- A guest's name was changed in July 2022, and another guest was struck off in March 2021. What ended before 2022 has to go.
CREATE TABLE guest (id INTEGER, name VARCHAR(20),
  known_from TIMESTAMP GENERATED ALWAYS AS ROW START, known_to TIMESTAMP GENERATED ALWAYS AS ROW END,
  PERIOD FOR SYSTEM_TIME (known_from, known_to), PRIMARY KEY (id)) WITH SYSTEM VERSIONING;
AT TIMESTAMP '2020-05-02 10:00:00';
INSERT INTO guest VALUES (1, 'Ada Brandt'), (2, 'Ben Carter');
AT TIMESTAMP '2021-03-08 09:00:00';
DELETE FROM guest WHERE id = 2;
AT TIMESTAMP '2022-07-01 12:00:00';
UPDATE guest SET name = 'Ada Novak' WHERE id = 1;
AT TIMESTAMP '2024-01-02 08:00:00';
PRUNE HISTORY BEFORE TIMESTAMP '2022-01-01 00:00:00';
-- who was known at the first moment that may still be asked for?
SELECT * FROM guest FOR SYSTEM_TIME AS OF TIMESTAMP '2022-01-01 00:00:00';
-- all that is left
SELECT * FROM guest FOR SYSTEM_TIME BETWEEN TIMESTAMP '2022-01-01 00:00:00' AND TIMESTAMP '2024-01-02 08:00:00';
-- of the time before there is no answer, rather than half of one
SELECT * FROM guest FOR SYSTEM_TIME AS OF TIMESTAMP '2021-12-31 23:59:59';
