-- By a key that is a text: its bytes are compared, capitals apart from small letters. By hand from docs/LANGUAGE.md.
CREATE TABLE g (name VARCHAR(6), n INTEGER, PRIMARY KEY (name));
INSERT INTO g VALUES ('Ada', 1), ('ada', 2), ('', 3), ('Zoë', 4), ('O''Hara', 5);
UPDATE g SET n = 10 WHERE name = 'ada';
UPDATE g SET n = 40 WHERE name = 'Zoë';
UPDATE g SET name = 'Ada' WHERE name = 'ada';
UPDATE g SET name = 'Ada Lo' WHERE name = 'Ada';
UPDATE g SET name = 'O''Haras' WHERE name = 'O''Hara';
DELETE FROM g WHERE name = '';
DELETE FROM g WHERE name = 'Zoe';
DELETE FROM g WHERE name = 'O''Hara';
SELECT * FROM g;
