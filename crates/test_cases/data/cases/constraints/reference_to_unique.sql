-- cases: in-turn
-- A reference to a UNIQUE key whose columns it names in the key's order: a NULL of the parent meets nothing, one of the child needs
-- nothing. By hand from docs/LANGUAGE.md.
CREATE TABLE p (a INTEGER, b INTEGER, UNIQUE (b, a));
CREATE TABLE c (a INTEGER, b INTEGER, FOREIGN KEY (a, b) REFERENCES p (b, a));
INSERT INTO p VALUES (1, 2), (NULL, 3), (4, NULL);
INSERT INTO c VALUES (2, 1);
INSERT INTO c VALUES (1, 2);
INSERT INTO c VALUES (3, NULL), (NULL, 4), (NULL, 9);
INSERT INTO c VALUES (3, 4);
INSERT INTO c VALUES (NULL, NULL), (3, 1);
UPDATE p SET a = NULL WHERE a = 1;
UPDATE p SET a = 5 WHERE a IS NULL;
INSERT INTO c VALUES (3, 5);
UPDATE c SET a = b, b = a WHERE a = 2;
UPDATE p SET a = b, b = a WHERE a = 1;
UPDATE c SET b = NULL;
DELETE FROM p;
SELECT * FROM c;
