-- cases: in-turn
-- Texts of 0 to 17 bytes, pairs of texts that are equal one after the other, and NULL: as groups, as rows of DISTINCT and as partners.
-- From sqlite3.
CREATE TABLE t (a VARCHAR(20), b VARCHAR(20), n INTEGER);
INSERT INTO t VALUES ('', 'x', 0), ('a', 'x', 1), ('abcdef', 'x', 2), ('abcdefg', 'x', 3), ('abcdefgh', 'x', 4), ('abcdefghi', 'x', 5),
  ('abcdefghijklmno', 'x', 6), ('abcdefghijklmnop', 'x', 7), ('abcdefghijklmnopq', 'x', 8), ('a', 'bc', 9), ('ab', 'c', 10),
  ('abc', '', 11), ('', 'abc', 12), (NULL, 'abc', 13), ('abc', NULL, 14), (NULL, NULL, 15), ('a', 'bc', 16), (NULL, NULL, 17),
  (NULL, 'abc', 18);
SELECT a, b, COUNT(*) AS c FROM t GROUP BY a, b;
SELECT DISTINCT a, b FROM t WHERE n > 7;
SELECT DISTINCT a FROM t;
SELECT b, COUNT(*) AS c, SUM(n) AS s FROM t GROUP BY b;
SELECT x.n, y.n AS m FROM t x JOIN t y ON x.a = y.a AND x.b = y.b;
SELECT x.n, y.n AS m FROM t x JOIN t y ON x.a = y.b;
SELECT x.n, y.n AS m FROM t x LEFT JOIN t y ON x.n = y.n AND x.a = y.b;
SELECT DISTINCT a, n, b FROM t WHERE a = 'a';
