-- cases: in-turn
-- A CHECK that is UNKNOWN lets a row in; one that is FALSE does not. By hand from docs/LANGUAGE.md.
CREATE TABLE c (x INTEGER, CHECK (x > 0));
INSERT INTO c VALUES (NULL);
INSERT INTO c VALUES (0);
SELECT x FROM c WHERE NOT (x > 0);
INSERT INTO c VALUES (1), (0);
UPDATE c SET x = 1;
UPDATE c SET x = x - 1;
UPDATE c SET x = x - 1 WHERE x = 2;
SELECT x FROM c;
