-- cases: short
-- Many rows under plain keys and a reference, in one statement and changed in one. By hand from docs/LANGUAGE.md.
CREATE TABLE k (a INTEGER, b INTEGER, PRIMARY KEY (a), UNIQUE (b));
CREATE TABLE c (a INTEGER, FOREIGN KEY (a) REFERENCES k (a));
INSERT INTO k VALUES {500 (#, -#), }(500, 0);
INSERT INTO k VALUES {500 (#, -#), }(501, -250);
INSERT INTO k VALUES {500 (#, -#), }(501, NULL), (502, NULL);
INSERT INTO c VALUES {502 (#), }(503);
INSERT INTO c VALUES {502 (#), }{100 (#), }(NULL);
UPDATE k SET a = a + 1;
UPDATE c SET a = 1 WHERE a > 2;
UPDATE k SET a = 503 - a WHERE a < 3 OR a > 500;
UPDATE k SET b = -501 - b WHERE b < 0;
UPDATE k SET b = 7 WHERE a > 1;
DELETE FROM k WHERE a > 2;
DELETE FROM k WHERE a > 1;
SELECT * FROM k;
