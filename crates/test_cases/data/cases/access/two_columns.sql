-- A key of two columns, of which WHERE gives both a value, one alone, or one two values; NULL in a key's column equals nothing.
-- By hand from docs/LANGUAGE.md.
CREATE TABLE p (a INTEGER, b VARCHAR(5), c INTEGER, UNIQUE (b, a));
INSERT INTO p VALUES (1, 'x', 10), (1, 'y', 11), (2, 'x', 12), (2, 'y', 13), (NULL, 'x', 14), (NULL, 'x', 15), (1, NULL, 16),
  (NULL, NULL, 17);
SELECT c FROM p WHERE a = 1 AND b = 'x';
SELECT c FROM p WHERE b = 'y' AND a = 2;
SELECT c FROM p WHERE 2 = a AND 'x' = b AND c > 11;
SELECT c FROM p WHERE a = 1 AND b = 'x' AND c > 10;
SELECT c FROM p WHERE a = 1;
SELECT c FROM p WHERE b = 'x';
SELECT c FROM p WHERE a = 1 AND b = 'x' AND a = 2;
SELECT c FROM p WHERE a = 1 AND a = 2;
SELECT c FROM p WHERE a = 1 AND b = 'x' AND a = 1;
SELECT c FROM p WHERE a IS NULL AND b = 'x';
SELECT c FROM p WHERE a = 1 AND b IS NULL;
SELECT c FROM p WHERE a = b;
SELECT c FROM p WHERE a = a AND b = b;
SELECT c FROM p WHERE a = 1 AND b = NULL;
SELECT c FROM p WHERE a = 1 AND b = 'z';
SELECT c FROM p WHERE (a = 1 OR a = 2) AND b = 'x';
SELECT c FROM p WHERE a = 1 AND b = 'x' OR c = 13;
SELECT c FROM p WHERE (a = 1 AND b = 'x') AND c = 10;
SELECT c FROM p WHERE NOT a = 1 AND b = 'x';
SELECT c FROM p WHERE a IN (1) AND b IN ('x', 'y');
SELECT c FROM p WHERE a BETWEEN 1 AND 1 AND b = 'x';
SELECT c FROM p WHERE a < 2 AND b = 'x';
SELECT c FROM p WHERE a <> 1 AND b = 'x';
