-- A sum is evaluated on those rows alone on which all conjuncts before it are TRUE, also if these limit a key to a range. Behind the sum, they do not
-- keep it from any row. The answers are by hand from docs/LANGUAGE.md.
CREATE TABLE t (k INTEGER, x INTEGER, PRIMARY KEY (k));
INSERT INTO t VALUES (1, 1), (2, 2), (3, 3), (4, 9223372036854775807), (5, 5);
SELECT k FROM t WHERE k BETWEEN 1 AND 3 AND x + 1 > 0;
SELECT k FROM t WHERE x + 1 > 0 AND k BETWEEN 1 AND 3;
SELECT k FROM t WHERE k BETWEEN 1 AND 4 AND x + 1 > 0;
SELECT k FROM t WHERE k >= 1 AND k < 4 AND x + 1 > 0;
SELECT k FROM t WHERE k >= 1 AND x + 1 > 0 AND k < 4;
SELECT k FROM t WHERE k >= 1 AND k <= 4 AND x + 1 > 0;
SELECT k FROM t WHERE k > 4 AND k <= 5 AND x + 1 > 0;
SELECT k FROM t WHERE k > 4 AND x + 1 > 0 AND k <= 5;
SELECT k FROM t WHERE k <= 5 AND x + 1 > 0 AND k > 4;
SELECT k FROM t WHERE k BETWEEN 1 AND 3 AND x + 1 > 0 AND k <> 4;
SELECT k FROM t WHERE (k BETWEEN 1 AND 3 AND x + 1 > 0);
SELECT k FROM t WHERE k + 1 > 1 AND k BETWEEN 1 AND 3;
SELECT k FROM t WHERE k BETWEEN 2 - 1 AND 3 AND x + 1 > 0;
SELECT k, x + 1 AS y FROM t WHERE k BETWEEN 1 AND 2;
SELECT k, x + 1 AS y FROM t WHERE k BETWEEN 3 AND 4;
UPDATE t SET x = x + 1 WHERE k > 1 AND k < 4;
UPDATE t SET x = x + 1 WHERE k > 1 AND k <= 4;
UPDATE t SET x = 0 WHERE k BETWEEN 1 AND 2 AND x + 1 > 0;
UPDATE t SET x = 0 WHERE x + 1 > 0 AND k BETWEEN 1 AND 2;
DELETE FROM t WHERE x + 1 > 0 AND k BETWEEN 1 AND 2;
DELETE FROM t WHERE k BETWEEN 3 AND 3 AND x + 1 > 0;
DELETE FROM t WHERE k BETWEEN 4 AND 4 AND x + 1 > 0;
SELECT * FROM t;
