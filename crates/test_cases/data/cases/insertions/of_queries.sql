-- cases: in-turn
-- INSERT of a query over an empty table, over one that is not there (E20), and over nine references (E15); `1 + NULL` is no statement (E10). A check refuses the last two. By hand from docs/LANGUAGE.md.
CREATE TABLE t ("a b" VARCHAR(4), d DATE NOT NULL, s TIMESTAMP GENERATED ALWAYS AS ROW START,
  e TIMESTAMP GENERATED ALWAYS AS ROW END NOT NULL, m TIMESTAMP(0), n BIGINT, PERIOD FOR SYSTEM_TIME (s, e)) WITH SYSTEM VERSIONING;
CREATE TABLE u (k INTEGER, v VARCHAR(65535));
INSERT INTO u VALUES (1, 'a'), (NULL, 'a'), (1 + NULL, 'a');
INSERT INTO u SELECT * FROM u;
INSERT INTO u (k) SELECT k FROM w;
INSERT INTO u SELECT * FROM u, u a, u b, u c, u d, u e, u f, u g, u h;
START TRANSACTION;
INSERT INTO u VALUES (1, 'a'), (NULL, 'a'), (1 + NULL, 'a');
INSERT INTO u SELECT * FROM u;
INSERT INTO u (k) SELECT k FROM w;
INSERT INTO u SELECT * FROM u, u a, u b, u c, u d, u e, u f, u g, u h;
