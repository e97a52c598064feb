-- cases: in-turn
-- Statements of the grammar where there is no table t: a key of a column of its period (E23), a table made whose key stands before its column, a check of a name that is none (E21); queries and portions are refused by their tables (E20); a check takes them. By hand from docs/LANGUAGE.md.
CREATE TABLE t (a DATE, b DATE, PERIOD FOR p (a, b), UNIQUE (a, p WITHOUT OVERLAPS));
CREATE TABLE w (PRIMARY KEY (a), a INT);
CREATE TABLE t (a INT, CHECK (b > 0));
INSERT INTO t SELECT * FROM u;
DELETE FROM t FOR PORTION OF p FROM DATE 'x' TO DATE 'y';
SELECT COUNT(a) FROM t;
SELECT DISTINCT * FROM t;
SELECT * FROM t, u;
SELECT * FROM t JOIN u ON a = b;
SELECT * FROM t AS u, t AS v;
SELECT * FROM t WHERE a = MAX(a);
SELECT * FROM t GROUP BY a;
SELECT * FROM t HAVING a = 1;
SELECT * FROM t ORDER BY a;
