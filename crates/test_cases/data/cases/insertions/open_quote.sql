-- cases: growths in-turn
-- A quoted name that is never closed: the rest is an unfinished statement (E12). By hand from docs/LANGUAGE.md.
CREATE TABLE t ("a b" VARCHAR(4), d DATE NOT NULL, s TIMESTAMP GENERATED ALWAYS AS ROW START,
  e TIMESTAMP GENERATED ALWAYS AS ROW END NOT NULL, m TIMESTAMP(0), n BIGINT, PERIOD FOR SYSTEM_TIME (s, e)) WITH SYSTEM VERSIONING;
CREATE TABLE u (k INTEGER, v VARCHAR(65535));
INSERT INTO u VALUES (1, "a);