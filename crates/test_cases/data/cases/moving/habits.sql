-- What is written by habit, and what is written here.
-- The text was written by hand from docs/LANGUAGE.md.
CREATE TABLE person (id INTEGER, name VARCHAR(100), born DATE, active INTEGER, PRIMARY KEY (id));
START TRANSACTION; INSERT INTO person VALUES (1, 'Ada', DATE '1990-12-31', 1), (2, 'Ben', NULL, 0); COMMIT;
BEGIN;
SELECT * FROM person LIMIT 1;
SELECT * FROM person WHERE id != 1;
SELECT * FROM person WHERE id <> 1;
SELECT name FROM person WHERE born IS NULL;
SELECT COUNT(*) AS people FROM person WHERE active = 1;
INSERT INTO person (id, name) SELECT id + 10, name FROM person;
SELECT id, name FROM person ORDER BY id DESC;
