-- cases: in-turn
-- INSERT of a query: new rows with all tests, the first fault in the order over all rows and the query; a list leaves the other columns NULL; nothing is changed by a refusal. By hand from docs/LANGUAGE.md.
CREATE TABLE src (i INTEGER, c VARCHAR(9), a DATE, b DATE);
INSERT INTO src VALUES (1, 'ab', DATE '2011-01-01', DATE '2011-01-02'), (2, 'abc', DATE '2011-01-01', DATE '2011-01-02'), (3, NULL, DATE '2011-01-01', DATE '2011-01-02'), (4, 'x', DATE '2011-01-02', DATE '2011-01-01'), (5, 'y', NULL, DATE '2011-01-01');
CREATE TABLE dst (i INTEGER, c VARCHAR(2) NOT NULL, a DATE, b DATE, PERIOD FOR p (a, b));
INSERT INTO dst SELECT * FROM src;
INSERT INTO dst SELECT * FROM src WHERE i <> 2;
INSERT INTO dst SELECT * FROM src WHERE i IN (1, 4);
INSERT INTO dst SELECT * FROM src WHERE i IN (4, 5);
INSERT INTO dst SELECT i + 9223372036854775803, c, a, b FROM src WHERE i IN (3, 4, 5);
INSERT INTO dst SELECT i + 9223372036854775803, c, a, b FROM src WHERE i = 4;
INSERT INTO dst SELECT * FROM src WHERE i = 1;
INSERT INTO dst (i, a, b) SELECT i, a, b FROM src WHERE i = 1;
INSERT INTO dst (b, a, c) SELECT b, a, c FROM src WHERE i = 1;
INSERT INTO dst SELECT COUNT(*), MAX(c), MIN(a), MAX(b) FROM dst;
INSERT INTO dst SELECT DISTINCT x.i, y.c, x.a, y.b FROM dst x, dst y WHERE x.i = 2 OR y.i = 2;
INSERT INTO dst SELECT * FROM dst WHERE i > 9;
SELECT i, c FROM dst ORDER BY i DESC;
START TRANSACTION;
INSERT INTO src (i) SELECT SUM(i) FROM src;
INSERT INTO src (i) SELECT MAX(i) FROM src WHERE c IS NULL;
INSERT INTO src SELECT * FROM nosuch;
SELECT i, COUNT(*) FROM src GROUP BY i HAVING COUNT(*) > 1;
ROLLBACK;
SELECT COUNT(*), MAX(i) FROM src;
