-- cases: short
-- Few rows, and more than few, joined with a table by its key. By hand from docs/LANGUAGE.md.
CREATE TABLE a (x INTEGER, UNIQUE (x));
CREATE TABLE b (y INTEGER, z INTEGER, UNIQUE (y));
INSERT INTO a VALUES (0){99 , (#)};
INSERT INTO b VALUES (0, 0){199 , (#, #)};
SELECT COUNT(*) AS n FROM a JOIN b ON x = y;
SELECT COUNT(*) AS n FROM a JOIN b ON x = y WHERE x < 64;
SELECT COUNT(*) AS n FROM a JOIN b ON x = y WHERE x < 65;
SELECT x, z FROM a JOIN b ON x = y WHERE x = 99;
SELECT COUNT(*) AS n, COUNT(x) AS m FROM b LEFT JOIN a ON y = x WHERE y > 95;
SELECT COUNT(*) AS n, COUNT(x) AS m FROM b LEFT JOIN a ON y = x WHERE y > 95 AND y < 150;
