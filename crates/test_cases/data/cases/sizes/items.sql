-- cases: short whole
-- 1,000 tuples, items, keys of ORDER BY and columns of GROUP BY; of one row 2,000 and 100,000 members of IN, a sum of 100,000 terms, and
-- conditions of 2,000. By hand from docs/LANGUAGE.md.
CREATE TABLE t (n INTEGER);
INSERT INTO t VALUES (0){999 , (#)};
SELECT {999 n + #, }n FROM t WHERE n = 0;
SELECT n FROM t WHERE n < 2 ORDER BY {999 n, }1 DESC;
SELECT n, COUNT(*) FROM t WHERE n < 2 GROUP BY {999 n, }n;
DELETE FROM t WHERE n <> 7;
SELECT n FROM t WHERE n IN ({1999 -#, }7);
SELECT n FROM t WHERE n NOT IN ({1999 -#, }7);
SELECT n FROM t WHERE n IN ({99999 -#, }7);
SELECT n FROM t WHERE n + 99999 = 7{99999  + 1};
SELECT n FROM t WHERE n = 7{1999  AND n <> -#};
SELECT n FROM t WHERE n = 0{1999  OR n = #};
