-- A text that is not closed swallows the statements after it. The refusal names the text, and how many ; are in quotes. All by hand.
CREATE TABLE t (x INTEGER, y VARCHAR(20));
INSERT INTO t VALUES (1, 'Ada), (2, 'Ben');
SELECT x FROM t; -- a ; here is in quotes too
INSERT INTO t VALUES (3, 'Cem');
