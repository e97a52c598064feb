-- cases: growths
-- INSERT: a text that is too long in any row comes before NULL in any. By hand from docs/LANGUAGE.md.
CREATE TABLE t (i INT NOT NULL, v VARCHAR(3));
INSERT INTO t VALUES (1, 'abc'), (2, NULL);
INSERT INTO t VALUES (0, NULL);
INSERT INTO t VALUES (NULL, NULL);
INSERT INTO t VALUES (NULL, 'a'), (1, 'abcd');
INSERT INTO t VALUES (1, 'abcd'), (NULL, 'a');
INSERT INTO t VALUES (NULL, 'a'), (NULL, 'abcd');
INSERT INTO t VALUES (NULL, 'a'), (NULL, 'a');
SELECT * FROM t;
CREATE TABLE u (i INT, v VARCHAR(3) NOT NULL);
INSERT INTO u VALUES (NULL, ''), (1, NULL);
SELECT * FROM u;
CREATE TABLE w (i INT, j INT NOT NULL);
INSERT INTO w (i) VALUES (1);
SELECT * FROM w;
