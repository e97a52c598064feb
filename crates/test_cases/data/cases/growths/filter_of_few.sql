-- cases: whole growths<=1000
-- A filter of 100,000 rows that keeps ten makes no growth for each row that it leaves out: at most 1,000. By hand from docs/LANGUAGE.md, and
-- the bound as a hundredth of the rows.
CREATE TABLE d (n INTEGER);
INSERT INTO d VALUES (0), (1), (2), (3), (4), (5), (6), (7), (8), (9);
CREATE TABLE t (k INTEGER, n INTEGER);
INSERT INTO t SELECT z.n, v.n * 10000 + w.n * 1000 + x.n * 100 + y.n * 10 + z.n FROM d v, d w, d x, d y, d z;
SELECT k, n FROM t WHERE n >= 31410 AND n < 31420;
