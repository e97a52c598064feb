-- cases: in-turn
-- Keys and references are tested at each statement of a transaction, not at its COMMIT. By hand from docs/LANGUAGE.md.
CREATE TABLE p (a INTEGER, PRIMARY KEY (a));
CREATE TABLE c (a INTEGER, FOREIGN KEY (a) REFERENCES p (a));
START TRANSACTION;
INSERT INTO c VALUES (1);
INSERT INTO p VALUES (1);
INSERT INTO c VALUES (1);
DELETE FROM p;
INSERT INTO p VALUES (1);
COMMIT;
SELECT COUNT(*) FROM c;
INSERT INTO p VALUES (1), (NULL);
