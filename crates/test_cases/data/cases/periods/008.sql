-- Made at random. The text comes from a rendering of the language that shares nothing with the engine.
AT TIMESTAMP '2011-01-01 00:00:00';
CREATE TABLE "t"--
("é" -- it;s "a"
varchar(3) NOT
Null);
update "t"  SET	"é"
=	"é"-- é
WHERE
"é" -- it;s "a"
=	"é";
CREATE TABLE "t" (A INTEGER, B VARCHAR(0), C DATE, D TIMESTAMP(13), PERIOD FOR P (A, NOCOL));
AT	TIMESTAMP '2011-01-01 00:00:00.000002';
SELECT
*	FROM--
"t"	WHERE
"é"	=  "é"
AND--
"t"."é" Is	NULL;
UPDATE "t" SET "é" = "é";
UPDATE "t" SET "é" = 'ab' WHERE "t"."é" >= 'a';
SELECT "t"."é"	FROM
"t"--
WHERE--
Period (Date
'2011-01-04',--
(DATE '2011-01-07')) CONTAINS
Period-- é
 (DATE '2011-01-07',  Date	'2011-01-06')
AND  1 <>
-1 AND -- it;s "a"
"t"."é"--
IN ('a',
"é",-- é
'ab' )  OR	NOT-- é
'
' >	"é"-- é
And   (Not--
"t"."é"  >-- é
"é")  AND	"é"	<=  "é";
AT TIMESTAMP '2011-01-01 00:00:00.000004';
Start--
transaction;
UPDATE "t" SET "é" = "t"."é" WHERE "t"."é" = "é";
DELETE FROM "t" WHERE PERIOD (TIMESTAMP '2011-01-01 00:00:00.000002', TIMESTAMP '2011-01-01 00:00:00.000004') IMMEDIATELY SUCCEEDS PERIOD (TIMESTAMP '2011-01-01 00:00:00.0000039', TIMESTAMP '2011-01-01 00:00:00.000004') AND "é" = "é";
INSERT INTO "t" VALUES ('ab');
ROLLBACK WORK;
INSERT	INTO
"t" Values
('A'), -- it;s "a"
('a');
SELECT
* from
"t";
Select "é",
"é", B."é" FROM
"t" AS	B--
Where
"é"
=	'zz';
DELETE-- é
FROM--
"t"-- é
WHERE '"' IN
('|') OR  ("é" Between -- it;s "a"
"t" ."é"-- é
AND
'''''' OR "é"-- é
>-- é
'日本');
UPDATE "t" SET "é" = 'a', "é" = 'a';
UPDATE "t" SET "é" = "é" WHERE "t"."é" > 'b' OR 3 < 3 AND "é" < 'A';
INSERT INTO "t" ("é") VALUES ('|'), (('A'));
CREATE TABLE V (A INTEGER GENERATED ALWAYS AS ROW START, B VARCHAR(0), C DATE, D DATE, PERIOD FOR P (C, D));
SELECT -1 * 1 FROM "t" "z" WHERE "é" <= 'A';
CREATE TABLE LOG (DS TIMESTAMP, OF INTEGER NOT NULL, "é" VARCHAR(3), PERIOD FOR EP (DS, DE), DE TIMESTAMP(0) WITHOUT TIME ZONE);
UPDATE "t" SET "é" = 'a';
AT TIMESTAMP '2011-13-01 00:00:00';
DELETE FROM "t" WHERE "é" NOT IN ('b');
INSERT INTO "t" ("é") VALUES ('b'), ('ab');
INSERT INTO "t" VALUES ('A'), (NULL);
CREATE -- it;s "a"
Table--
EMP	("a"-- é
DATE,--
ROW -- it;s "a"
TIMESTAMP(12)--
WITHOUT time	Zone, "a b" -- it;s "a"
integer,-- é
DS
Timestamp	WITHOUT  TIME
ZONE,
DE -- it;s "a"
TIMESTAMP(6) -- it;s "a"
WITHOUT
TIME  ZONE, -- é
PERIOD -- it;s "a"
for P--
(DS,
DE)) ;
SELECT * FROM "t";
SELECT * FROM LOG;
SELECT * FROM EMP;
