-- A sum in WHERE is evaluated on every row of the table that reaches it, also where a key is given beside it; one of the select list on
-- those rows alone that are left. By hand from docs/LANGUAGE.md.
CREATE TABLE n (k INTEGER, x INTEGER, PRIMARY KEY (k));
INSERT INTO n VALUES (1, 1), (2, 9223372036854775807), (3, NULL);
SELECT k FROM n WHERE x + 1 > 0 AND k = 1;
SELECT k FROM n WHERE k = 1 AND x + 1 > 0;
SELECT k FROM n WHERE k = 2 AND x + 1 > 0;
SELECT k FROM n WHERE k = 3 AND x + 1 > 0;
SELECT k FROM n WHERE k = 4 AND x + 1 > 0;
SELECT k FROM n WHERE x * 2 = 4 AND k = 4;
SELECT k FROM n WHERE - x < 0 AND k = 1;
SELECT k FROM n WHERE - x - 2 < 0 AND k = 1;
SELECT k FROM n WHERE (k = 1 AND x + 1 > 0);
SELECT k FROM n WHERE k = 1 AND (x = 1 OR x + 1 > 0);
SELECT k FROM n WHERE k = 1 OR x + 1 > 0;
SELECT k FROM n WHERE k + 0 = 1;
SELECT k FROM n WHERE k + 9223372036854775806 > 0 AND k = 1;
SELECT k FROM n WHERE k = 1 + 1;
SELECT k FROM n WHERE k = 9223372036854775807 + 1;
SELECT k FROM n WHERE k = 9223372036854775808;
SELECT k, x + 1 AS y FROM n WHERE k = 1;
SELECT k, x + 1 AS y FROM n WHERE k = 2;
SELECT k, x + 1 AS y FROM n WHERE k = 3;
SELECT k, x + 1 AS y FROM n WHERE k = 4;
SELECT COUNT(*), SUM(x), SUM(x + 1) FROM n WHERE k = 1;
SELECT SUM(x + 1) FROM n WHERE k = 2;
SELECT COUNT(*), MAX(x) FROM n WHERE k = 4;
SELECT k FROM n WHERE k = 2 GROUP BY k HAVING SUM(x + 1) > 0;
SELECT k FROM n WHERE k = 4 GROUP BY k HAVING SUM(x + 1) > 0;
