-- cases: in-turn
-- A definition as its statements show it: the name, the columns and their order, which take no NULL, the limit of a text, kinds, and
-- which are generated. By hand from docs/LANGUAGE.md.
CREATE TABLE "a""b" (i INTEGER NOT NULL, e TIMESTAMP(6) NOT NULL GENERATED ALWAYS AS ROW END, j INT, k BIGINT, v VARCHAR(003) NOT NULL, "d d" DATE, PERIOD FOR SYSTEM_TIME (s, e), m TIMESTAMP(12), s TIMESTAMP GENERATED ALWAYS AS ROW START) WITH SYSTEM VERSIONING;
AT TIMESTAMP '2011-01-01 00:00:00';
INSERT INTO "a""b" VALUES (1, 2, 3, 'abc', DATE '2011-01-02', TIMESTAMP '2011-01-03 00:00:00');
INSERT INTO "a""b" (i, v) VALUES (1, 'ab');
INSERT INTO "a""b" (i, v) VALUES (1, 'abcd');
INSERT INTO "a""b" (v) VALUES ('a');
INSERT INTO "a""b" (i) VALUES (1);
INSERT INTO "a""b" (i, v, e) VALUES (1, 'a', NULL);
INSERT INTO "a""b" (i, v, s) VALUES (1, 'a', NULL);
INSERT INTO "a""b" (i, v, "D D") VALUES (1, 'a', NULL);
INSERT INTO "a""b" (i, v, "d d") VALUES (1, 'a', 1);
INSERT INTO "a""b" (i, v, m) VALUES (1, 'a', DATE '2011-01-02');
INSERT INTO "a""b" (i, v, j) VALUES (1, 'a', 'b');
INSERT INTO "a""b" (i, v, k) VALUES (1, 'a', 'b');
INSERT INTO "a""b" (v, i) VALUES (1, 'a');
SELECT * FROM "a""b";
CREATE TABLE t (a INT);
SELECT * FROM "T";
SELECT * FROM t FOR SYSTEM_TIME AS OF TIMESTAMP '2011-01-01 00:00:00';
