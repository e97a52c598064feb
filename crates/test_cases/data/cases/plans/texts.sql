-- cases: growths in-turn
-- An equality of a VARCHAR(3) with a VARCHAR(9), and texts of the same beginning. From sqlite3.
CREATE TABLE s (k VARCHAR(3), n INTEGER);
INSERT INTO s VALUES ('a', 1), ('ab', 2), ('abc', 3), ('', 4), (NULL, 5), ('A', 6);
CREATE TABLE l (k VARCHAR(9), m INTEGER);
INSERT INTO l VALUES ('abc', 1), ('abcd', 2), ('a', 3), ('a ', 4), ('', 5), (NULL, 6), ('a', 7);
SELECT s.k, n, m FROM s JOIN l ON s.k = l.k;
SELECT s.k, n, m FROM l JOIN s ON s.k = l.k;
SELECT l.k, m, n FROM l LEFT JOIN s ON s.k = l.k;
SELECT s.k, n, m FROM s, l WHERE s.k = l.k AND n < m;
