-- cases: growths
-- Each growth is refused in turn: a table dropped between two others, and made again. By hand from docs/LANGUAGE.md.
CREATE TABLE a (x INTEGER);
CREATE TABLE b (x INTEGER);
CREATE TABLE c (x INTEGER);
INSERT INTO c VALUES (3);
INSERT INTO b VALUES (2);
DROP TABLE b;
SELECT * FROM c;
CREATE TABLE b (y DATE);
SELECT * FROM b;
DROP TABLE a RESTRICT;
SELECT * FROM a;
