-- cases: growths<=1000
-- An INSERT of one row in a table of 10,000 with texts copies no other: it makes at most 1,000 growths. By hand from
-- docs/LANGUAGE.md, and the bound as a tenth of the rows.
CREATE TABLE d (n INTEGER, x VARCHAR(10));
INSERT INTO d VALUES (0, 'zero'), (1, 'one'), (2, 'two'), (3, 'three'), (4, 'four'), (5, 'five'), (6, 'six'), (7, 'seven'), (8, 'eight'),
  (9, 'nine');
CREATE TABLE t (n INTEGER, x VARCHAR(10), y VARCHAR(10), s TIMESTAMP GENERATED ALWAYS AS ROW START,
  e TIMESTAMP GENERATED ALWAYS AS ROW END, PERIOD FOR SYSTEM_TIME (s, e)) WITH SYSTEM VERSIONING;
INSERT INTO t SELECT a.n * 1000 + b.n * 100 + c.n * 10 + d.n, c.x, d.x FROM d a, d b, d c, d d;
INSERT INTO t VALUES (10000, 'new', NULL);
