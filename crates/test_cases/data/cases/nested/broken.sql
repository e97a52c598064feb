-- cases: short whole
-- Texts that are no tokens to their end, after 2,000 and 100,000 parentheses in each form of a statement: E10, since E14 is of texts that are all
-- tokens. What is read again for the place of the refusal ends at the 65th parenthesis, so that the stack does not grow with them. By hand from
-- docs/LANGUAGE.md.
SELECT {2000 (}#;
SELECT {100000 (}#;
INSERT INTO t VALUES {2000 (}#;
INSERT INTO t VALUES {100000 (}#;
INSERT INTO t SELECT {2000 (}#;
INSERT INTO t SELECT {100000 (}#;
UPDATE t SET x = {2000 (}#;
UPDATE t SET x = {100000 (}#;
UPDATE t SET x = 1 WHERE {2000 (}#;
UPDATE t SET x = 1 WHERE {100000 (}#;
DELETE FROM t WHERE {2000 (}#;
DELETE FROM t WHERE {100000 (}#;
UPDATE t FOR PORTION OF p FROM {2000 (}#;
UPDATE t FOR PORTION OF p FROM {100000 (}#;
CREATE TABLE u (x INTEGER, CHECK {2000 (}#;
CREATE TABLE u (x INTEGER, CHECK {100000 (}#;
READ r SELECT {2000 (}#;
READ r SELECT {100000 (}#;
SELECT x FROM t GROUP BY x HAVING {2000 (}#;
SELECT x FROM t GROUP BY x HAVING {100000 (}#;
SELECT t.x FROM t JOIN u ON {2000 (}#;
SELECT t.x FROM t JOIN u ON {100000 (}#;
SELECT x FROM t ORDER BY {2000 (}#;
SELECT x FROM t ORDER BY {100000 (}#;
AT {2000 (}#;
AT {100000 (}#;
PRUNE HISTORY BEFORE {2000 (}#;
PRUNE HISTORY BEFORE {100000 (}#;
FOO {2000 (}#;
FOO {100000 (}#;
