-- cases: in-turn
-- A sum beside two equalities: where ON asks it before them, or of a pair that agrees in both, it can be out of range; where they fail before it, it is not asked. By hand from docs/LANGUAGE.md.
CREATE TABLE a (t INTEGER, x INTEGER, p INTEGER);
CREATE TABLE b (t INTEGER, x INTEGER, q INTEGER);
INSERT INTO a VALUES (1, 1, 10), (1, 2, 11), (2, 3, 9223372036854775807);
INSERT INTO b VALUES (1, 1, 20), (1, 2, 21), (2, 1, 22);
SELECT p, q FROM a JOIN b ON a.t = b.t AND a.x = b.x AND p + 1 > 0;
SELECT p, q FROM a JOIN b ON a.t = b.t AND p + 1 > 0 AND a.x = b.x;
SELECT p, q FROM a JOIN b ON p + 1 > 0 AND a.t = b.t AND a.x = b.x;
SELECT p, q FROM a LEFT JOIN b ON a.t = b.t AND a.x = b.x AND p + 1 > 0;
SELECT p, q FROM a LEFT JOIN b ON a.t = b.t AND p + 1 > 0 AND a.x = b.x;
SELECT p, q FROM a, b WHERE a.t = b.t AND a.x = b.x AND p + 1 > 0;
SELECT p, q FROM a, b WHERE a.t = b.t AND p + 1 > 0 AND a.x = b.x;
SELECT p, q FROM a JOIN b ON a.t = b.t AND a.x = b.x WHERE p + 1 > 0;
SELECT p, q FROM a JOIN b ON a.t = b.t AND a.x + 0 = b.x;
UPDATE b SET x = 3 WHERE q = 22;
SELECT p, q FROM a JOIN b ON a.t = b.t AND a.x = b.x;
SELECT p, q FROM a JOIN b ON a.t = b.t AND a.x = b.x AND p + 1 > 0;
SELECT p, q FROM a JOIN b ON a.t = b.t AND a.x = b.x WHERE p + 1 > 0;
