-- cases: growths
-- INSERT: a text has as many characters as its column takes, or one more. By hand from docs/LANGUAGE.md.
CREATE TABLE t (v VARCHAR(3));
INSERT INTO t VALUES ('');
INSERT INTO t VALUES ('abc');
INSERT INTO t VALUES ('abcd');
INSERT INTO t VALUES ('äöü');
INSERT INTO t VALUES ('äöüß');
INSERT INTO t VALUES ('日本語');
INSERT INTO t VALUES ('日本語字');
INSERT INTO t VALUES ('😀😀😀');
INSERT INTO t VALUES ('a😀bc');
SELECT * FROM t;
