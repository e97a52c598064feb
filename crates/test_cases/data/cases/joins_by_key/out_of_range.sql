-- cases: in-turn
-- What is out of range in ON or WHERE is so whatever key there is: then rows are not found by it. By hand from docs/LANGUAGE.md.
CREATE TABLE t (x INTEGER, UNIQUE (x));
INSERT INTO t VALUES (1), (2), (NULL);
CREATE TABLE v (y INTEGER, n INTEGER, UNIQUE (y));
INSERT INTO v VALUES (1, 5), (7, 9223372036854775807);
SELECT x, n FROM t JOIN v ON x = y AND n + 1 > 0;
SELECT x, n FROM t JOIN v ON n + 1 > 0 AND x = y;
SELECT x, n FROM t LEFT JOIN v ON x = y AND n + 1 > 0;
SELECT x, n FROM t LEFT JOIN v ON n + 1 > 0 AND x = y WHERE x = 1;
SELECT x, n FROM t JOIN v ON x = y WHERE n + 1 > 0;
SELECT x, n FROM t JOIN v ON x + 6 = y;
SELECT n + 1 AS z FROM t JOIN v ON x = y;
SELECT n + 1 AS z FROM t JOIN v ON x = y OR y = 7;
UPDATE t SET x = 7 WHERE x = 2;
SELECT n + 1 AS z FROM t JOIN v ON x = y;
SELECT x, n FROM t JOIN v ON x = y WHERE x < 7;
