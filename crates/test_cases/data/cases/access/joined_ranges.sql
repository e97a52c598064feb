-- A range of a key is used for the first table of a join if nothing is calculated. A sum in ON or WHERE is asked of every pair that reaches it, also of
-- those whose row is outside the range. The answers are by hand from docs/LANGUAGE.md.
CREATE TABLE d (k INTEGER, PRIMARY KEY (k));
CREATE TABLE n (k INTEGER, x INTEGER, d INTEGER, PRIMARY KEY (k));
INSERT INTO d VALUES (1), (2);
INSERT INTO n VALUES (1, 1, 1), (2, 2, 2), (3, NULL, 2), (4, 9223372036854775807, 1), (5, 5, 9);
SELECT n.k, d.k FROM n JOIN d ON n.d = d.k WHERE n.k BETWEEN 1 AND 3;
SELECT n.k, d.k FROM n LEFT JOIN d ON n.d = d.k WHERE n.k > 3 AND n.k <= 5;
SELECT n.k, d.k FROM n LEFT JOIN d ON n.d = d.k WHERE n.k BETWEEN 5 AND 3;
SELECT n.k FROM n JOIN d ON n.x + d.k > 0 WHERE n.k BETWEEN 1 AND 3;
SELECT n.k FROM n LEFT JOIN d ON n.d = d.k AND n.x + d.k > 0 WHERE n.k BETWEEN 1 AND 3;
SELECT n.k FROM n JOIN d ON d.k + 1 = n.x WHERE n.k BETWEEN 1 AND 3;
SELECT n.k FROM n JOIN d ON n.x + 1 = d.k WHERE n.k BETWEEN 1 AND 3;
SELECT n.k FROM n JOIN d ON n.d = d.k WHERE n.k BETWEEN 1 AND 3 AND n.x + d.k > 0;
SELECT n.k FROM n JOIN d ON n.d = d.k WHERE n.x + d.k > 0 AND n.k BETWEEN 1 AND 3;
SELECT n.k, d.k FROM n, d WHERE n.k BETWEEN 1 AND 3 AND d.k BETWEEN 2 AND 2 AND n.d = d.k;
