-- cases: short
-- 64 to 200 rows, joined with a table of 2,000 by its key, and multiplied with it in the middle. By hand from docs/LANGUAGE.md.
CREATE TABLE a (x INTEGER, y INTEGER, UNIQUE (x));
CREATE TABLE b (y INTEGER, z INTEGER, UNIQUE (y));
CREATE TABLE c (z INTEGER, UNIQUE (z));
INSERT INTO a VALUES (0, NULL){199 , (#, #)};
INSERT INTO b VALUES (0, 0){1999 , (#, #)};
INSERT INTO c VALUES (0){1999 , (#)};
SELECT COUNT(*) AS n FROM a JOIN b ON a.y = b.y WHERE x < 64;
SELECT COUNT(*) AS n FROM a JOIN b ON a.y = b.y WHERE x < 65;
SELECT COUNT(*) AS n FROM a JOIN b ON a.y = b.y WHERE x < 124;
SELECT COUNT(*) AS n FROM a JOIN b ON a.y = b.y WHERE x < 125;
SELECT COUNT(*) AS n FROM a JOIN b ON a.y = b.y WHERE x < 126;
SELECT COUNT(*) AS n, COUNT(z) AS m FROM a LEFT JOIN b ON a.y = b.y WHERE x < 65;
SELECT COUNT(*) AS n, COUNT(z) AS m FROM a LEFT JOIN b ON a.y = b.y WHERE x < 124;
SELECT COUNT(*) AS n, COUNT(z) AS m FROM a LEFT JOIN b ON a.y = b.y AND z < 50 WHERE x < 125;
SELECT COUNT(*) AS n FROM a, b, c WHERE x < 64 AND b.y = a.y AND c.z = b.z;
SELECT COUNT(*) AS n FROM a, b, c WHERE x < 65 AND b.y = a.y AND c.z = b.z;
SELECT COUNT(*) AS n FROM a, b, c WHERE x < 124 AND b.y = a.y AND c.z = b.z;
SELECT COUNT(*) AS n FROM a, b, c WHERE x < 126 AND b.y = a.y AND c.z = b.z;
SELECT COUNT(*) AS n FROM a, b, c WHERE b.y = a.y AND c.z = b.z;
SELECT x, c.z FROM a, b, c WHERE x > 60 AND x < 130 AND b.y = a.y AND b.z > 127 AND c.z = b.z;
