-- cases: in-turn
-- Aggregates inside expressions, in HAVING alone, in lists and periods there, of texts, days and moments, and of expressions that are NULL. By hand from docs/LANGUAGE.md.
CREATE TABLE g (k INTEGER, n INTEGER, c VARCHAR(3), d DATE, m TIMESTAMP);
INSERT INTO g VALUES (1, 3, 'a', DATE '2011-01-03', TIMESTAMP '2011-01-01 00:00:00.5'), (1, NULL, 'Z', DATE '2011-01-01', NULL), (1, 5, 'é', NULL, TIMESTAMP '2010-12-31 23:59:59'), (2, NULL, NULL, NULL, NULL), (2, -4, '', DATE '2012-02-29', TIMESTAMP '2011-01-01 00:00:00');
SELECT k, COUNT(*) * 10 + SUM(n), -MIN(n), (MAX(n)) FROM g GROUP BY k;
SELECT MIN(c), MAX(c), MIN(d), MAX(d), MIN(m), MAX(m), COUNT(m) FROM g;
SELECT k FROM g GROUP BY k HAVING SUM(n) IN (COUNT(*), 8);
SELECT k FROM g GROUP BY k HAVING MIN(c) = '' AND COUNT(c) < COUNT(*);
SELECT k FROM g GROUP BY k HAVING PERIOD (MIN(d), MAX(d)) CONTAINS DATE '2011-01-02';
SELECT k FROM g GROUP BY k HAVING SUM(n) BETWEEN MIN(n) AND MAX(n);
SELECT COUNT(n + k), SUM(n + k), SUM(0 * n), COUNT(1), SUM(1) FROM g;
SELECT k + 1 AS k, MAX(n) FROM g GROUP BY k HAVING MAX(n) IS NOT NULL ORDER BY k DESC;
SELECT k FROM g GROUP BY k, k HAVING 1 = 1;
SELECT SUM(n) FROM g WHERE n > 100;
SELECT g.k, SUM(b.n) AS s FROM g JOIN g b ON g.k < b.k GROUP BY g.k;
SELECT k FROM g GROUP BY k HAVING SUM(n) > 0 OR COUNT(*) = 2;
SELECT 'x', COUNT(*) FROM g GROUP BY c HAVING c < 'a';
