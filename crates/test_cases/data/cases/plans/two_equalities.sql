-- cases: in-turn
-- Joins on two and three equalities: ties in the first column, in both, NULL in either, LEFT JOIN, a chain, a table with itself. From sqlite3.
CREATE TABLE a (t INTEGER, x INTEGER, p INTEGER);
CREATE TABLE b (t INTEGER, x INTEGER, q INTEGER);
INSERT INTO a VALUES (1, 2, 10), (1, 1, 11), (2, 2, 12), (1, NULL, 13), (NULL, 1, 14), (1, 1, 15), (2, 3, 16);
INSERT INTO b VALUES (1, 1, 20), (2, 2, 21), (1, NULL, 22), (1, 3, 23), (1, 2, 24), (NULL, 1, 25), (1, 1, 26), (2, 1, 27);
SELECT p, q FROM a JOIN b ON a.t = b.t AND a.x = b.x;
SELECT p, q FROM a JOIN b ON b.x = a.x AND a.t = b.t;
SELECT p, q FROM a LEFT JOIN b ON a.t = b.t AND a.x = b.x;
SELECT q, p FROM b LEFT JOIN a ON a.t = b.t AND b.x = a.x;
SELECT p, q FROM a JOIN b ON a.t = b.t AND a.x = b.x AND a.t = b.x;
SELECT p, q FROM a LEFT JOIN b ON a.t = b.t AND a.x = b.x AND a.t = b.x;
SELECT p, q FROM a JOIN b ON a.t = b.t AND a.x = b.t;
SELECT p, q FROM a JOIN b ON a.t = b.x AND a.t = b.t;
SELECT p, q FROM a JOIN b ON a.t = b.t AND a.x = b.x AND a.t = b.t;
SELECT p, q FROM a JOIN b ON a.t = b.t AND a.x = b.x AND q > 20;
SELECT p, q FROM a JOIN b ON a.t = b.t AND a.x = b.x OR a.p = 16;
SELECT p, q FROM a LEFT JOIN b ON a.t = b.t AND a.x = b.x WHERE q IS NULL;
SELECT a.p AS p, c.p AS r FROM a JOIN a c ON a.t = c.t AND a.x = c.x WHERE a.p < c.p;
SELECT a.p AS p, q, c.p AS r FROM a JOIN b ON a.t = b.t AND a.x = b.x JOIN a c ON c.t = b.t AND c.x = a.x AND c.p = a.p;
SELECT a.p AS p, q, c.p AS r FROM a LEFT JOIN b ON a.t = b.t AND a.x = b.x LEFT JOIN a c ON c.t = b.x AND c.x = b.t;
SELECT COUNT(*) AS n FROM a JOIN b ON a.t = b.t;
