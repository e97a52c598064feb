-- cases: in-turn
-- What colours a terminal (ESC [ 3 1 m), at each such place: it is kept and printed as it is. By hand from docs/LANGUAGE.md.
CREATE TABLE t (x INTEGER, y VARCHAR(9));
INSERT INTO t VALUES (1, NULL);
SELECT x[31m FROM t;
SELECT x FROM [31mt;
SELECT x AS "a[31mb" FROM t;
SELECT x AS "[31m" FROM t;
UPDATE t SET y = 'a[31mb';
SELECT y FROM t;
SELECT x FROM t WHERE y = '[31m';
SELECT x FROM t WHERE y = 'a[31mb';
SELECT 1[31m2 FROM t;
SELECT[31mx FROM t;
SELECT x FROM t[31m;
SELECT x <[31m= 1 FROM t;
SELECT x -- a[31mb
FROM t;
-- [31m
SELECT x FROM t;
SELECT x FROM t WHERE y = DATE '2011-01-0[31m';
AT TIMESTAMP '2011-01-01 00:00:00[31m';
[31m;
