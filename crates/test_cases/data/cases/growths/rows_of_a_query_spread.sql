-- cases: growths<=1000
-- The same of an INSERT that names its columns, in another order and without one: its rows, which are short, make no growth each. By hand from
-- docs/LANGUAGE.md, and the bound as a tenth of the rows.
CREATE TABLE d (n INTEGER, x VARCHAR(10));
INSERT INTO d VALUES (0, 'zero'), (1, 'one'), (2, 'two'), (3, 'three'), (4, 'four'), (5, 'five'), (6, 'six'), (7, 'seven'), (8, 'eight'),
  (9, 'nine');
CREATE TABLE s (n INTEGER, x VARCHAR(10), y VARCHAR(10));
CREATE TABLE t (n INTEGER, x VARCHAR(10), y VARCHAR(10));
INSERT INTO s SELECT a.n * 1000 + b.n * 100 + c.n * 10 + d.n, c.x, d.x FROM d a, d b, d c, d d;
INSERT INTO t (y, n) SELECT x, n + 1 FROM s WHERE n >= 0;
