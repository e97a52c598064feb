-- cases: in-turn
-- CHECKs of an application period, of its columns and of PERIOD (..), of the table's own columns by its name, and of texts.
-- By hand from docs/LANGUAGE.md.
CREATE TABLE "Stay" (room INTEGER, "a b" VARCHAR(5), f DATE, u DATE, PERIOD FOR "in" (f, u),
  CHECK ("Stay"."in" OVERLAPS PERIOD (DATE '2011-01-01', DATE '2012-01-01')), CHECK ("in" CONTAINS DATE '2011-06-01' OR room < 10),
  CONSTRAINT same CHECK (NOT ("in" EQUALS PERIOD (DATE '2011-03-01', DATE '2011-04-01'))),
  CONSTRAINT same CHECK ("Stay".room + 0 <> 13 AND "a b" IS NOT NULL), CHECK (f IN (DATE '2011-01-01', DATE '2011-03-01', DATE '2011-05-01') OR "a b" > 'm'));
INSERT INTO "Stay" VALUES (1, 'abc', DATE '2011-01-01', DATE '2011-02-01');
INSERT INTO "Stay" VALUES (1, 'abc', DATE '2011-01-02', DATE '2011-02-01');
INSERT INTO "Stay" VALUES (1, 'm', DATE '2011-01-02', DATE '2011-02-01');
INSERT INTO "Stay" VALUES (1, 'm ', DATE '2011-01-02', DATE '2011-02-01');
INSERT INTO "Stay" VALUES (1, 'x', DATE '2010-01-01', DATE '2011-01-01');
INSERT INTO "Stay" VALUES (1, 'x', DATE '2010-01-01', DATE '2011-01-02');
INSERT INTO "Stay" VALUES (1, 'x', DATE '2011-03-01', DATE '2011-04-01');
INSERT INTO "Stay" VALUES (1, 'x', DATE '2011-03-01', DATE '2011-04-02');
INSERT INTO "Stay" VALUES (13, 'x', DATE '2011-03-01', DATE '2011-07-01');
INSERT INTO "Stay" VALUES (12, 'x', DATE '2011-03-01', DATE '2011-06-01');
INSERT INTO "Stay" VALUES (12, 'x', DATE '2011-03-01', DATE '2011-06-02');
INSERT INTO "Stay" VALUES (NULL, 'x', DATE '2011-03-01', DATE '2011-05-02');
INSERT INTO "Stay" VALUES (1, NULL, DATE '2011-03-01', DATE '2011-05-02');
INSERT INTO "Stay" VALUES (NULL, NULL, DATE '2011-03-01', DATE '2011-05-02');
-- A period that does not rise is E33, whatever the CHECKs say of its ends.
INSERT INTO "Stay" VALUES (1, 'x', DATE '2011-05-02', DATE '2011-03-01');
-- A plain UPDATE of an end makes a new row, of which the CHECKs are asked.
UPDATE "Stay" SET u = DATE '2011-06-01' WHERE room = 12;
UPDATE "Stay" SET u = DATE '2011-06-03', room = room + 1 WHERE room = 12;
UPDATE "Stay" SET u = DATE '2011-06-03', room = room + 2 WHERE room = 12;
UPDATE "Stay" SET "a b" = 'a' WHERE f = DATE '2011-01-02';
UPDATE "Stay" SET "a b" = 'a', f = DATE '2011-01-01' WHERE f = DATE '2011-01-02';
SELECT room, "a b", f, u FROM "Stay";
