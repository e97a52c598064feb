-- cases: in-turn
-- A key of VARCHAR(3) and one of VARCHAR(9), each sought by the other's values: texts of the same beginning, an empty one, NULL. By hand from docs/LANGUAGE.md.
CREATE TABLE s (k VARCHAR(3), n INTEGER, UNIQUE (k));
INSERT INTO s VALUES ('a', 1), ('ab', 2), ('abc', 3), ('', 4), (NULL, 5), ('A', 6), (NULL, 7);
CREATE TABLE l (k VARCHAR(9), m INTEGER, UNIQUE (k));
INSERT INTO l VALUES ('abc', 1), ('abcd', 2), ('a', 3), ('a ', 4), ('', 5), (NULL, 6);
SELECT s.k, n, m FROM s JOIN l ON s.k = l.k;
SELECT l.k, m, n FROM l JOIN s ON s.k = l.k;
SELECT n, m FROM s LEFT JOIN l ON s.k = l.k;
SELECT m, n FROM l LEFT JOIN s ON s.k = l.k;
SELECT n, m FROM s LEFT JOIN l ON s.k = l.k WHERE s.k IS NULL;
SELECT a.n AS x, b.n AS y FROM s a JOIN l ON a.k = l.k JOIN s b ON b.k = l.k;
