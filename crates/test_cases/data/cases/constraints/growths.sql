-- cases: growths
-- Changes under keys, references and checks, and definitions of them, whatever growth is refused. By hand from docs/LANGUAGE.md.
CREATE TABLE p (a INTEGER, b VARCHAR(3), UNIQUE (b, a), PRIMARY KEY (a), CHECK (a < 9 AND b <> 'no' OR a IN (12, 13)));
CREATE TABLE c (n INTEGER, b VARCHAR(3), a INTEGER, FOREIGN KEY (b, a) REFERENCES p (b, a) ON DELETE NO ACTION, UNIQUE (n));
START TRANSACTION;
INSERT INTO p VALUES (1, 'x'), (2, 'y'), (12, 'no');
INSERT INTO c VALUES (1, 'x', 1), (2, NULL, 7);
UPDATE p SET a = 3 - a WHERE a < 9;
UPDATE p SET a = 13 - a;
UPDATE c SET n = n + 1;
COMMIT;
INSERT INTO p VALUES (9, 'z');
DELETE FROM p WHERE a = 1;
DELETE FROM c WHERE n = 2;
DELETE FROM p WHERE a = 1;
SELECT * FROM p;
