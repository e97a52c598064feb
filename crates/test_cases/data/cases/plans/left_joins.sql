-- cases: in-turn
-- LEFT JOIN on an equality: a condition on the right side in ON restricts what is joined, in WHERE what is left. From sqlite3.
CREATE TABLE a (x INTEGER, y INTEGER);
INSERT INTO a VALUES (1, 10), (2, 20), (3, NULL), (NULL, 40), (1, 10);
CREATE TABLE b (x INTEGER, z INTEGER);
INSERT INTO b VALUES (1, 100), (1, 101), (2, NULL), (NULL, 400), (2, NULL);
SELECT a.x, a.y, b.z FROM a LEFT JOIN b ON a.x = b.x;
SELECT a.x, a.y, b.z FROM a LEFT JOIN b ON b.x = a.x;
SELECT a.x, b.z FROM a LEFT JOIN b ON a.x = b.x AND b.z = 100;
SELECT a.x, b.z FROM a LEFT JOIN b ON a.x = b.x WHERE b.z = 100;
SELECT a.x, b.z FROM a LEFT JOIN b ON a.x = b.x AND a.y = 20;
SELECT a.x, b.z FROM a LEFT JOIN b ON a.x = b.x WHERE a.y = 20;
SELECT a.x, a.y FROM a LEFT JOIN b ON a.x = b.x WHERE b.x IS NULL;
SELECT a.x, b.x, c.y FROM a LEFT JOIN b ON a.x = b.x, a c WHERE b.x = c.x;
SELECT a.x, b.z, c.y FROM a LEFT JOIN b ON a.x = b.x LEFT JOIN a c ON c.x = b.x;
SELECT a.x, b.z, c.y FROM a LEFT JOIN b ON a.x = b.x JOIN a c ON c.x = b.x;
SELECT COUNT(*) FROM a LEFT JOIN b ON a.y = b.z;
