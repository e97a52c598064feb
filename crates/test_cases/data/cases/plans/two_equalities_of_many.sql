-- cases: short
-- Two equalities of which the first ties nearly all rows, over more rows than few, and beside a key. By hand from docs/LANGUAGE.md.
CREATE TABLE a (t INTEGER, x INTEGER);
CREATE TABLE b (t INTEGER, x INTEGER, UNIQUE (x));
INSERT INTO a VALUES (0, 0){99 , (1, #)};
INSERT INTO b VALUES (0, 0){199 , (1, #)};
SELECT COUNT(*) AS n FROM a JOIN b ON a.t = b.t;
SELECT COUNT(*) AS n FROM a JOIN b ON a.t = b.t AND a.x = b.x;
SELECT COUNT(*) AS n FROM a JOIN b ON a.x = b.x AND a.t = b.t WHERE a.x < 10;
SELECT COUNT(*) AS n, COUNT(a.x) AS m FROM b LEFT JOIN a ON b.t = a.t AND b.x = a.x;
SELECT COUNT(*) AS n FROM a, b WHERE a.t = b.t AND a.x = b.x;
SELECT COUNT(*) AS n FROM a JOIN b ON a.t = b.t AND a.x = b.x AND a.x = b.t;
SELECT COUNT(*) AS n FROM a, b, a c WHERE a.t = b.t AND a.x = b.x AND c.t = a.t AND c.x = b.x;
