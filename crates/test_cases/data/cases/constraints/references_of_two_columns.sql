-- cases: in-turn
-- A reference of two columns to a UNIQUE key that holds NULLs, and names of constraints that stand twice.
-- By hand from docs/LANGUAGE.md.
CREATE TABLE p (a INTEGER, b VARCHAR(3), UNIQUE (a, b), CONSTRAINT z CHECK (a < 10), CONSTRAINT z CHECK (p.a <> 5));
CREATE TABLE c (n INTEGER, a INTEGER, b VARCHAR(9), CONSTRAINT r FOREIGN KEY (a, b) REFERENCES p (a, b)
  ON DELETE NO ACTION ON UPDATE NO ACTION ON DELETE NO ACTION);
INSERT INTO p VALUES (1, 'x'), (1, NULL), (1, NULL), (2, 'y');
INSERT INTO c VALUES (1, 1, 'x'), (2, NULL, 'q'), (3, 9, NULL);
INSERT INTO c VALUES (4, 2, 'x');
INSERT INTO p VALUES (2, 'y'), (11, 'z');
DELETE FROM p WHERE a = 1;
DELETE FROM p WHERE b IS NULL;
UPDATE p SET a = 3 - a;
DELETE FROM c WHERE n = 1;
UPDATE p SET a = 3 - a;
SELECT * FROM p;
