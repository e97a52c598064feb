-- Where a conjunct of ON or WHERE calculates, it is asked of every pair and row that reaches it, also of those that a key leaves out.
-- By hand from docs/LANGUAGE.md.
CREATE TABLE d (k INTEGER, PRIMARY KEY (k));
CREATE TABLE n (k INTEGER, x INTEGER, d INTEGER, PRIMARY KEY (k));
INSERT INTO d VALUES (1), (2);
INSERT INTO n VALUES (1, 1, 1), (2, 9223372036854775807, 9), (3, NULL, 2);
SELECT n.k FROM n JOIN d ON n.d = d.k WHERE n.k = 1 AND x + 1 > 0;
SELECT n.k FROM n JOIN d ON n.d = d.k WHERE x + 1 > 0 AND n.k = 1;
SELECT n.k FROM n LEFT JOIN d ON n.d = d.k WHERE n.k = 1 AND x + 1 > 0;
SELECT n.k FROM n LEFT JOIN d ON n.d = d.k WHERE x + 1 > 0 AND n.k = 1;
SELECT n.k FROM n JOIN d ON n.x + d.k > 0 WHERE n.k = 1;
SELECT n.k FROM n LEFT JOIN d ON n.d = d.k AND n.x + d.k > 0 WHERE n.k = 1;
SELECT n.k FROM n LEFT JOIN d ON n.x + d.k > 0 AND n.d = d.k WHERE n.k = 1;
SELECT n.k FROM n CROSS JOIN d WHERE n.k = 1 AND d.k = 2 AND x + d.k > 0;
SELECT n.k FROM n CROSS JOIN d WHERE x + d.k > 0 AND n.k = 1 AND d.k = 2;
SELECT n.k FROM n, d WHERE n.k = 1 AND d.k = 2 AND x + d.k > 0;
SELECT n.k FROM n, d JOIN n m ON m.x + d.k > 0 WHERE n.k = 1;
SELECT n.k FROM n, d JOIN n m ON m.d = d.k AND m.x + d.k > 0 WHERE n.k = 1;
