-- cases: in-turn
-- A key is asked of the rows after the statement, not on the way. By hand from docs/LANGUAGE.md.
CREATE TABLE k (x INTEGER, PRIMARY KEY (x));
INSERT INTO k VALUES (1), (2);
UPDATE k SET x = x + 1;
INSERT INTO k VALUES (2);
SELECT x FROM k;
UPDATE k SET x = 5 - x;
UPDATE k SET x = x - 1;
UPDATE k SET x = 2;
UPDATE k SET x = 2 WHERE x = 1;
UPDATE k SET x = 2 WHERE x = 2;
INSERT INTO k VALUES (3), (3);
INSERT INTO k VALUES (3), (4), (0), (1);
SELECT x FROM k;
