-- A person asks to be forgotten. What does PRUNE HISTORY forget, and what does it keep?
-- The text was checked by hand against docs/LANGUAGE.md.
CREATE TABLE person (no INTEGER, name VARCHAR(20),
  known_from TIMESTAMP GENERATED ALWAYS AS ROW START, known_to TIMESTAMP GENERATED ALWAYS AS ROW END,
  PERIOD FOR SYSTEM_TIME (known_from, known_to), PRIMARY KEY (no)) WITH SYSTEM VERSIONING;
CREATE TABLE claim (id INTEGER, no INTEGER, cents INTEGER,
  known_from TIMESTAMP GENERATED ALWAYS AS ROW START, known_to TIMESTAMP GENERATED ALWAYS AS ROW END,
  PERIOD FOR SYSTEM_TIME (known_from, known_to), PRIMARY KEY (id)) WITH SYSTEM VERSIONING;
-- Names in a table without history: a DELETE removes them.
CREATE TABLE contact (no INTEGER, name VARCHAR(20), PRIMARY KEY (no));
AT TIMESTAMP '2023-01-10 09:00:00';
INSERT INTO person VALUES (1, 'Ada'), (2, 'Ben');
INSERT INTO contact VALUES (1, 'Ada'), (2, 'Ben');
INSERT INTO claim VALUES (10, 1, 5000), (11, 2, 7000);
AT TIMESTAMP '2023-06-01 09:00:00';
UPDATE claim SET cents = 5500 WHERE id = 10;
AT TIMESTAMP '2024-02-01 09:00:00';      -- Ada is to be forgotten: what refers to her stays, under a number
DELETE FROM person WHERE no = 1;
DELETE FROM contact WHERE no = 1;
-- A DELETE in a versioned table forgets nothing:
SELECT name FROM person FOR SYSTEM_TIME AS OF TIMESTAMP '2024-01-31 00:00:00';
SELECT name FROM contact;
-- A PRUNE before the moment of the DELETE keeps the version: it was known then. At that moment, it goes.
PRUNE HISTORY BEFORE TIMESTAMP '2024-01-31 00:00:00';
SELECT no, name, known_to FROM person FOR SYSTEM_TIME FROM TIMESTAMP '2024-01-31 00:00:00' TO TIMESTAMP '2025-01-01 00:00:00';
PRUNE HISTORY BEFORE TIMESTAMP '2024-02-01 09:00:00';
SELECT no, name, known_to FROM person FOR SYSTEM_TIME FROM TIMESTAMP '2024-02-01 09:00:00' TO TIMESTAMP '2025-01-01 00:00:00';
SELECT name FROM person FOR SYSTEM_TIME AS OF TIMESTAMP '2024-01-31 00:00:00';
-- The price: the past of every table went with it, the claim's old amount too.
SELECT id, cents, known_from FROM claim FOR SYSTEM_TIME FROM TIMESTAMP '2024-02-01 09:00:00' TO TIMESTAMP '9999-12-31 23:59:59.999999';
SELECT cents FROM claim FOR SYSTEM_TIME AS OF TIMESTAMP '2023-02-01 00:00:00';
