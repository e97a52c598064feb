-- cases: growths
-- Tables whose names begin alike, or differ in case. By hand from docs/LANGUAGE.md.
SELECT * FROM log;
CREATE TABLE log (x INT);
CREATE TABLE logs (x INT);
CREATE TABLE "log" (x INT);
INSERT INTO log VALUES (1);
INSERT INTO logs VALUES (2);
INSERT INTO "log" VALUES (3);
SELECT * FROM log;
SELECT * FROM logs;
SELECT * FROM "log";
SELECT * FROM lo;
SELECT * FROM "Log";
