-- An apostrophe that is not doubled opens a text that never closes. The refusal names its place. All by hand.
CREATE TABLE t (x VARCHAR(20));
INSERT INTO t VALUES ('it''s'); -- isn't
INSERT INTO t VALUES ('it's');
SELECT x FROM t;
