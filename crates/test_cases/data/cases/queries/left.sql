-- cases: growths
-- LEFT JOIN keeps a row without a partner, and repeats stay; RIGHT JOIN is no statement. Each growth is refused in turn. By hand from docs/LANGUAGE.md.
CREATE TABLE t (x INTEGER);
INSERT INTO t VALUES (1), (2);
CREATE TABLE v (y INTEGER);
INSERT INTO v VALUES (1), (NULL), (1);
SELECT x, y FROM t LEFT JOIN v ON x = y;
SELECT x, y FROM t RIGHT JOIN v ON x = y;
