-- Made at random. The text comes from a rendering of the language that shares nothing with the engine.
AT TIMESTAMP '2011-01-01 00:00:00';
create--
TABLE-- é
"t"
("a b" VARCHAR(003),-- é
CONSTRAINT
C1  PRIMARY key ("a b"));
SELECT ALL 1, "a b", "a b" FROM "t" AS A GROUP BY "a b";
START-- é
TRANSACTION;
Insert INTO
"t"	("a b") values
 ('A');
SELECT ALL * FROM "t" Q, "t" WHERE "t"."a b" IS NOT NULL OR 'a' IS NULL AND Q."a b" < 'A' ORDER BY 1 ASC;
SELECT x FROM t WHERE ((((((((((((((((((((((((((((((((((((((((((((((((((((((((((((((((((x)))))))))))))))))))))))))))))))))))))))))))))))))))))))))))))))))) = 1;
INSERT INTO "t" ("a b") VALUES ('𝄞'), ('; -');
SELECT ALL  MAX('ab'),  count(*),	"t"."a b"-- é
FROM  "t"	AS--
R-- é
Left -- it;s "a"
Join
"t" on NOT "t"."a b"-- é
IS	null--
AND NOT R."a b" <= 'b'
Group	BY--
"t"."a b";
INSERT INTO "t" ("a b") VALUES ('b');
AT TIMESTAMP '2011-01-01 00:59:59.999999';
INSERT INTO "t" VALUES ('A'), ('𝄞'), ('a');
COMMIT-- é
work;
INSERT INTO "t" VALUES ('a');
Insert INTO "t"--
SELECT-- é
'b'
FROM "t" -- it;s "a"
WHERE-- é
"a b"
in-- é
("a b",  'ab', '|')  AND--
"a b" -- it;s "a"
>  -- it;s "a"
"a b"  OR -- it;s "a"
2--
> 00	*	1;
SELECT SUM((0)) M, TIMESTAMP '2011-01-01 00:00:00.000001' FROM "t" B GROUP BY "a b" ORDER BY 1, C2 DESC;
SELECT "a b" FROM "t" WHERE "a b" NOT BETWEEN "a b" AND "t"."a b" ORDER BY C1, C1 DESC;
DELETE FROM "t" WHERE '; --' < Q.X;
START  TRANSACTION;
SELECT -1,--
"a b"	FROM  "t"
group BY--
"a b" having Not-- é
"t"."a b"
IN
("a b", "a b")
AND
"t"."a b"--
between  min("t"."a b")--
AND "a b" ORDER
BY-- é
C2--
DESC,--
1;
SELECT DATE '2011-01-06', 1, "t"."a b" FROM "t" GROUP BY ;
SELECT ALL COUNT(0) M, SUM(-1), COUNT(*), COUNT(*) FROM "t" ORDER BY 4 DESC;
DELETE FROM "t" WHERE 'a' NOT IN ('ab', 'A') OR "a b" <= 'b';
Rollback;
CREATE TABLE EMP (OF INT, S TIMESTAMP GENERATED ALWAYS AS ROW START, E TIMESTAMP(6) WITHOUT TIME ZONE GENERATED ALWAYS AS ROW END NOT NULL, PERIOD FOR SYSTEM_TIME (S, E), PRIMARY KEY (OF), PRIMARY KEY (OF)) WITH SYSTEM VERSIONING;
CREATE  table
"t"  (PERIOD
FOR  system_time
(E,
SYS_S),-- é
SYS_S
TIMESTAMP  GENERATED -- it;s "a"
ALWAYS AS ROW START,
G--
DATE,  "q""q" DATE NOT-- é
NULL,
PERIOD for -- it;s "a"
P
(F, G), 
e--
date Generated
ALWAYS--
AS -- it;s "a"
ROW	Start,
CONSTRAINT  c1 UNIQUE
("q""q",-- é
P WITHOUT  Overlaps),  F
Date)  with System--
VERSIONING;
SELECT -9223372036854775809 FROM "t" FOR SYSTEM_TIME BETWEEN TIMESTAMP '0001-01-01 00:00:00.0000009' AND TIMESTAMP 'bad' WHERE "a b" = 'a' AND "a b" = 1 AND COUNT(*) = 1;
CREATE TABLE T (X INTEGER, F TIMESTAMP(12) WITHOUT TIME ZONE, DE TIMESTAMP(12) WITHOUT TIME ZONE, PERIOD FOR "p q" (F, DE), PRIMARY KEY (X, "p q" WITHOUT OVERLAPS));
CREATE TABLE V (A INTEGER, B VARCHAR(3), A DATE, D DATE, PERIOD FOR P (C, D), PRIMARY KEY (C, P WITHOUT OVERLAPS), CHECK (A > 0), UNIQUE (B));
INSERT INTO "t" ("a b") VALUES ('ab'), (('a '));
UPDATE "t" SET "a b" = ("a b") WHERE NOT "a b" BETWEEN 'A' AND '𝄞' AND 1 >= 3;
SELECT * FROM "t";
SELECT * FROM T;
