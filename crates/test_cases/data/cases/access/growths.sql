-- cases: growths
-- A query by a key and one by a period, whatever growth is refused. By hand from docs/LANGUAGE.md.
CREATE TABLE t (k INTEGER, v VARCHAR(5), f DATE, u DATE, PERIOD FOR p (f, u), UNIQUE (k, v));
INSERT INTO t VALUES (1, 'a', DATE '2011-01-01', DATE '2011-01-03'), (1, 'b', DATE '2011-01-02', DATE '2011-01-04');
SELECT f FROM t WHERE k = 1 AND v = 'b';
SELECT v FROM t WHERE p CONTAINS DATE '2011-01-01';
SELECT v FROM t WHERE p OVERLAPS PERIOD (DATE '2011-01-03', DATE '2011-01-09') AND u > f;
