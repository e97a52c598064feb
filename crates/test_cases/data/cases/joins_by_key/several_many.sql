-- cases: short
-- Rows joined with a table of 4,000 by its key of two columns, one of which has two values, and by half of it. By hand from docs/LANGUAGE.md.
CREATE TABLE a (x INTEGER, y INTEGER, z INTEGER, UNIQUE (x));
CREATE TABLE b (p INTEGER, q INTEGER, w INTEGER, UNIQUE (p, q));
INSERT INTO a VALUES (0, 0, 7){199 , (#, #, 7)};
INSERT INTO b VALUES (0, 7, 0){1999 , (#, 7, #)};
INSERT INTO b VALUES (0, 8, 0){1999 , (#, 8, #)};
SELECT COUNT(*) AS n, SUM(w) AS s FROM a JOIN b ON a.y = b.p AND a.z = b.q;
SELECT COUNT(*) AS n, COUNT(w) AS m FROM a LEFT JOIN b ON a.y = b.p AND a.x = b.q;
SELECT COUNT(*) AS n FROM a, b WHERE a.y = b.p AND b.q = a.z AND w > 100;
SELECT COUNT(*) AS n, SUM(w) AS s FROM a JOIN b ON a.y = b.p WHERE x < 3;
SELECT x, w FROM a JOIN b ON b.q = a.z AND a.y = b.p WHERE x = 150;
