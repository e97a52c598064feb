-- cases: in-turn
-- Joins by equalities alone, of more than three current rows on the left: with NULLs, repeats, rows that the transaction has removed, and no row at all. By hand from docs/LANGUAGE.md.
CREATE TABLE x (a INTEGER, b INTEGER);
CREATE TABLE y (a INTEGER, c INTEGER);
INSERT INTO x VALUES (1, 10), (2, 20), (2, 21), (3, 30), (NULL, 40), (5, 50);
INSERT INTO y VALUES (2, 1), (2, 2), (3, 3), (4, 4), (NULL, 5), (6, 6), (7, 7), (8, 8), (9, 9), (10, 10);
SELECT x.b, y.c FROM x JOIN y ON x.a = y.a;
SELECT x.b, y.c FROM x LEFT JOIN y ON x.a = y.a;
SELECT x.b, y.c FROM x, y WHERE x.a = y.a;
SELECT COUNT(*), SUM(y.c) FROM x JOIN y ON x.a = y.a AND x.b = y.c;
SELECT COUNT(*), SUM(y.c) FROM x LEFT JOIN y ON x.a = y.a AND x.b = y.c;
START TRANSACTION;
DELETE FROM x WHERE b = 20;
UPDATE x SET a = 4 WHERE b = 30;
SELECT x.b, y.c FROM x JOIN y ON x.a = y.a;
SELECT x.b, y.c FROM x LEFT JOIN y ON x.a = y.a;
DELETE FROM x;
SELECT x.b, y.c FROM x JOIN y ON x.a = y.a;
SELECT x.b, y.c FROM x LEFT JOIN y ON x.a = y.a;
SELECT COUNT(*) FROM x, y WHERE x.a = y.a;
ROLLBACK;
DELETE FROM y;
SELECT x.b, y.c FROM x LEFT JOIN y ON x.a = y.a;
SELECT COUNT(*) FROM x, y WHERE x.a = y.a;
