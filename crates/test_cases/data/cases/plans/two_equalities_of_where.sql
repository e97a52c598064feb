-- cases: in-turn
-- Two equalities in WHERE: of a product of two tables and of three, of a product asked early, behind a chain, and before one. From sqlite3.
CREATE TABLE a (t INTEGER, x VARCHAR(4), p INTEGER);
CREATE TABLE b (t INTEGER, x VARCHAR(4), q INTEGER);
CREATE TABLE c (t INTEGER, x VARCHAR(4), r INTEGER);
INSERT INTO a VALUES (1, 'm', 10), (1, 'n', 11), (2, 'm', 12), (1, NULL, 13), (NULL, 'm', 14);
INSERT INTO b VALUES (1, 'n', 20), (1, 'm', 21), (1, 'm', 22), (2, 'n', 23), (1, NULL, 24), (NULL, 'm', 25), (2, 'm', 26);
INSERT INTO c VALUES (1, 'm', 30), (1, 'o', 31), (2, 'm', 32), (2, NULL, 33), (1, 'n', 34);
SELECT p, q FROM a, b WHERE a.t = b.t AND a.x = b.x;
SELECT p, q FROM a, b WHERE a.x = b.x AND b.t = a.t AND q > 21;
SELECT p, q, r FROM a, b, c WHERE a.t = b.t AND a.x = b.x AND b.t = c.t AND b.x = c.x;
SELECT p, q, r FROM a, b, c WHERE a.t = b.t AND a.x = b.x AND r = 31;
SELECT p, q, r FROM a, b, c WHERE a.t = c.t AND b.x = c.x AND a.x = b.x AND a.t = b.t;
SELECT p, q, r FROM a JOIN b ON a.t = b.t AND a.x = b.x, c WHERE c.t = a.t AND c.x = b.x;
SELECT p, q, r FROM a, b JOIN c ON b.t = c.t AND b.x = c.x WHERE a.t = c.t AND a.x = c.x;
SELECT p, q, r FROM a, b LEFT JOIN c ON b.t = c.t AND b.x = c.x AND r > 30 WHERE a.t = b.t AND a.x = b.x;
SELECT COUNT(*) AS n FROM a, b WHERE a.t = b.t;
