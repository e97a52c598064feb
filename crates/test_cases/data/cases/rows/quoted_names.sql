-- cases: growths in-turn
-- Names in quotes are kept as written; words are read in upper case. By hand from docs/LANGUAGE.md.
CREATE TABLE "select" ("from" INT, "From" INT, "FROM" INT, work INT, "a""b" INT, _1 INT, "1" INT, "É" INT);
INSERT INTO "select" ("From", "WORK", "from") VALUES (1, 2, 3); SELECT * FROM "select"; SELECT * FROM "SELECT";
