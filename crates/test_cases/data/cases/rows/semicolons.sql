-- cases: in-turn
-- `;` in texts, quoted names and comments ends nothing, and a quote in a comment opens nothing. By hand from docs/LANGUAGE.md.
CREATE TABLE "a;b" (v VARCHAR(20), "c;--" INT);
INSERT INTO "a;b" VALUES (';', 1) -- no;
; INSERT INTO "a;b" VALUES ('; -- '';', 2);-- it's not; a "quote
INSERT INTO "a;b" VALUES ('--', 3) ;; --x
SELECT * FROM "a;b"; a ';' ";" b;c -- ;
-;
SELECT ';
