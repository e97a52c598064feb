-- cases: whole growths<=1000
-- COUNT(*) over a product of 300 by 300 rows makes no growth for each pair: at most 1,000. By hand from docs/LANGUAGE.md, and the bound as a
-- ninetieth of the pairs.
CREATE TABLE d (n INTEGER);
INSERT INTO d VALUES (0), (1), (2), (3), (4), (5), (6), (7), (8), (9);
CREATE TABLE a (n INTEGER, x INTEGER);
INSERT INTO a SELECT v.n * 100 + w.n * 10 + x.n, x.n FROM d v, d w, d x WHERE v.n < 3;
CREATE TABLE b (n INTEGER, x INTEGER);
INSERT INTO b SELECT v.n * 100 + w.n * 10 + x.n, w.n FROM d v, d w, d x WHERE v.n < 3;
SELECT COUNT(*) FROM a, b;
