-- A table without a key has all rows looked at; one that is not versioned has no past; a key of all columns; equal rows without a key.
-- By hand from docs/LANGUAGE.md.
CREATE TABLE a (x INTEGER, y INTEGER);
INSERT INTO a VALUES (1, 1), (1, 1), (1, 2), (NULL, 3);
SELECT * FROM a WHERE x = 1;
SELECT * FROM a WHERE x = 1 AND y = 2;
SELECT * FROM a FOR SYSTEM_TIME AS OF TIMESTAMP '2011-01-01 00:00:00' WHERE x = 1;
CREATE TABLE b (x INTEGER, y INTEGER, PRIMARY KEY (y, x), UNIQUE (x), UNIQUE (y));
INSERT INTO b VALUES (1, 11), (2, 22), (3, 33);
SELECT * FROM b WHERE x = 2;
SELECT * FROM b WHERE y = 22;
SELECT * FROM b WHERE x = 2 AND y = 22;
SELECT * FROM b WHERE x = 2 AND y = 11;
SELECT * FROM b WHERE y = 11 AND x = 2;
SELECT * FROM b WHERE x = y;
SELECT * FROM b;
SELECT * FROM b WHERE 1 = 1;
SELECT * FROM b WHERE 1 = 2;
SELECT * FROM b WHERE x = 1 AND 1 = 2;
SELECT * FROM b WHERE x = 1 AND nothing = 2;
DELETE FROM b;
SELECT * FROM b WHERE x = 2;
