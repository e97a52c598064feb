-- cases: short whole
-- Chains of eight references, each of a table of 64 columns: a row of 512. By hand from docs/LANGUAGE.md.
CREATE TABLE t ({63 c# INTEGER, }c64 INTEGER);
INSERT INTO t VALUES ({63 #, }64), ({63 10#, }1064);
SELECT * FROM t r0 {7 JOIN t r# ON r#.c1 = r0.c1 }WHERE r7.c64 = 64;
SELECT * FROM t r0 {7 LEFT JOIN t r# ON r#.c1 = r0.c2 }WHERE r0.c1 = 1;
SELECT COUNT(*), SUM(r0.c1), SUM(r7.c1) FROM t r0{7  CROSS JOIN t r#};
SELECT COUNT(*), SUM(r0.c1), SUM(r7.c1) FROM t r0{7 , t r#};
