-- cases: in-turn
-- Two keys of one list of columns, and in another order; references to each, of one table. By hand from docs/LANGUAGE.md.
CREATE TABLE k (a INTEGER, b INTEGER, PRIMARY KEY (a), UNIQUE (a), UNIQUE (a), UNIQUE (a, b), UNIQUE (b, a));
CREATE TABLE c (x INTEGER, y INTEGER, FOREIGN KEY (x) REFERENCES k (a), FOREIGN KEY (x) REFERENCES k (a),
  FOREIGN KEY (x, y) REFERENCES k (a, b), FOREIGN KEY (y, x) REFERENCES k (b, a));
INSERT INTO k VALUES (NULL, 1);
INSERT INTO k VALUES (1, NULL), (2, 5);
INSERT INTO k VALUES (1, 5);
INSERT INTO c VALUES (1, NULL);
INSERT INTO c VALUES (2, 5);
INSERT INTO c VALUES (1, 5);
INSERT INTO c VALUES (NULL, 7);
DELETE FROM k WHERE a = 1;
UPDATE k SET b = 6 WHERE a = 2;
UPDATE k SET b = 6 WHERE a = 1;
DELETE FROM c WHERE x = 1;
DELETE FROM k WHERE a = 1;
SELECT * FROM k;
