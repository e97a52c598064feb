-- cases: in-turn
-- Names of tables, columns, periods and constraints that are quoted or written in any case, and words that are no names elsewhere.
-- By hand from docs/LANGUAGE.md.
create table "p|q" ("a;" Int, "SELECT" varchar(2), End date, "end" date, period for "KEY" (End, "end"),
  constraint "a;" primary key ("a;", "KEY" without overlaps), constraint "a;" unique ("SELECT", END));
Create Table OVERLAP ("a;" Int, f Date, T DATE, Period For key (F, t), CONSTRAINT Action foreign key ("a;", period KEY)
  references "p|q" ("a;", period "KEY") on update no action, Constraint action check (OVERLAP.KEY OVERLAPS PERIOD (f, T)));
INSERT INTO "p|q" VALUES (1, 'a', DATE '2011-01-01', DATE '2011-02-01'), (1, 'b', DATE '2011-02-01', DATE '2011-03-01');
INSERT INTO "p|q" VALUES (2, 'a', DATE '2011-01-01', DATE '2011-02-01');
INSERT INTO "p|q" VALUES (2, 'B', DATE '2011-01-01', DATE '2011-02-01'), (1, 'B', DATE '2011-01-31', DATE '2011-02-01');
INSERT INTO overlap VALUES (1, DATE '2011-01-01', DATE '2011-03-01');
INSERT INTO Overlap VALUES (1, DATE '2011-03-01', DATE '2011-03-02');
DELETE FROM "p|q" FOR PORTION OF KEY FROM DATE '2011-01-10' TO DATE '2011-01-11';
DROP TABLE "p|q";
DROP TABLE "overlap";
DROP TABLE overlap;
DELETE FROM "p|q" FOR PORTION OF key FROM DATE '2011-01-10' TO DATE '2011-01-11';
DROP TABLE "p|q";
