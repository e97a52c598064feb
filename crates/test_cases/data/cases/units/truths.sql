-- AND, OR and NOT in three-valued logic: A = 1 is TRUE where A is 1, FALSE where it is 0 and UNKNOWN where it is NULL. A pair that neither
-- a query nor the one with NOT answers is UNKNOWN. By hand from docs/LANGUAGE.md.
CREATE TABLE truths (a INTEGER, b INTEGER);
INSERT INTO truths VALUES
  (0, 0), (0, NULL), (0, 1), (NULL, 0), (NULL, NULL), (NULL, 1), (1, 0), (1, NULL), (1, 1);
SELECT a, b FROM truths WHERE (a = 1 AND b = 1);
SELECT a, b FROM truths WHERE NOT (a = 1 AND b = 1);
SELECT a, b FROM truths WHERE (a = 1 OR b = 1);
SELECT a, b FROM truths WHERE NOT (a = 1 OR b = 1);
SELECT a FROM truths WHERE b = 1 AND NOT a = 1;
SELECT a FROM truths WHERE b = 1 AND NOT (NOT a = 1);
