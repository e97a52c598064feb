-- cases: in-turn
-- ORDER BY headings and positions, rising and falling, and what is no heading. By hand from docs/LANGUAGE.md.
CREATE TABLE o (a INTEGER, b INTEGER);
INSERT INTO o VALUES (1, NULL), (2, 1), (NULL, 1), (2, NULL), (2, 1);
SELECT a, b FROM o ORDER BY b;
SELECT a, b FROM o ORDER BY b DESC, 1;
SELECT b AS a, a AS z FROM o ORDER BY z ASC, a DESC;
SELECT a FROM o ORDER BY b;
SELECT a AS x, b AS x FROM o ORDER BY x;
SELECT a FROM o ORDER BY 2;
SELECT a AS b FROM o ORDER BY a;
SELECT a b, COUNT(*) FROM o GROUP BY a ORDER BY c2 DESC, b;
