-- cases: growths in-turn
-- NOT IN a list with a NULL keeps no row; a SUM of NULLs alone is NULL. By hand from docs/LANGUAGE.md.
CREATE TABLE u (x INTEGER, y INTEGER);
INSERT INTO u VALUES (1, NULL);
SELECT x FROM u WHERE x NOT IN (2, y);
SELECT COUNT(*), SUM(y) FROM u;
