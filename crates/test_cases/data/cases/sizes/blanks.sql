-- cases: short whole
-- Blanks within a statement's text count: 1,048,576 bytes are answered, one more is refused (E13), and the next statement runs. By hand
-- from docs/LANGUAGE.md.
CREATE TABLE t (x INTEGER);
INSERT INTO t VALUES (1), (2);
SELECT x FROM t{1048561  };
SELECT x FROM t{1048562  };
SELECT x FROM t;
