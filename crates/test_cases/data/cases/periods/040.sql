-- Made at random. The text comes from a rendering of the language that shares nothing with the engine.
AT TIMESTAMP '2011-01-01 00:00:00';
CREATE table "t"-- é
(row -- it;s "a"
VARCHAR(2), -- it;s "a"
"é" VARCHAR( 3));
SELECT 1, R.ROW, ROW AS C2 FROM "t" R WHERE 'a' NOT IN (ROW);
select
row  "o p"--
FROM "t";
UPDATE "t" SET "é" = 'a' WHERE nocol = 1 AND 1 = 1;
START TRANSACTION;
DELETE FROM "t" WHERE "t"."é" = 'b' AND "t"."é" > ROW OR ("é" NOT IN ('a') AND NOT "é" BETWEEN "é" AND 'A');
INSERT INTO "t" ("é") VALUES (('; --')), ('b'), (('é'));
INSERT INTO "t" VALUES ('a', 'ab');
SELECT
ROW FROM
"t";
SELECT "é" FROM "t" FOR SYSTEM_TIME AS OF TIMESTAMP '0001-01-01 00:00:00' WHERE "é" = 'a' AND -9223372036854775809 IS NULL AND 9223372036854775807 + 1 > 0;
INSERT INTO "t" VALUES ('a ', NULL);
Insert
into "t" (ROW, "é")	VALUES ('A', 'A');
DELETE
From	"t"
where ("é"  Not In	(row,  "é") -- it;s "a"
AND	NOT "é"
>=	'A' -- it;s "a"
OR -- it;s "a"
NOT--
'''''' -- it;s "a"
<	( "é") ) -- é
And -- it;s "a"
"é"	BETWEEN-- é
'ab' And "t"."é";
SELECT * FROM "t";
SELECT ROW, A.ROW FROM "t" A WHERE "é" = "é" AND A."é" < "é";
UPDATE "t" SET "é" = 'a';
UPDATE "t" SET ROW = "é" WHERE "é" IN ('𝄞', 'ab');
INSERT INTO "t" VALUES ('a', 'zz'), ('b', '"'), ('日本', 'it'''), ('ab', 'a'), ('b', 'b'), ('A', 'ab');
Update	"t"  SET--
Row =
('ab');
Drop  TABLE -- it;s "a"
"t";
CREATE TABLE LOG (A INTEGER GENERATED ALWAYS AS ROW START, B VARCHAR(3), A DATE, D DATE, PERIOD FOR P (C, D));
DELETE FROM "t" WHERE PERIOD (TIMESTAMP '0001-01-01 00:00:00', TIMESTAMP '2011-01-01 00:00:00.000001') IMMEDIATELY PRECEDES PERIOD (TIMESTAMP '0001-01-01 00:00:00.000001', TIMESTAMP '2011-01-01 00:00:00');
select--
"é",
ROW From
"t"
WHERE -- it;s "a"
'𝄞'--
>=
"é" OR
"é"-- é
In -- it;s "a"
( ('|'));
select ROW -- it;s "a"
FROM-- é
"t"  B
WHERE-- é
ROW -- it;s "a"
< 
B."é"
And-- é
b.row	IN
 ('b',  'A')--
Or--
'
'-- é
>	'a';
SELECT * FROM "t" WHERE 'b' IN ('a', "é") OR 'A' = 'A' AND 'ab' >= "é";
Select-- é
R.Row--
a	FROM "t"
AS R  WHERE "é" IS
NULL
Or--
"é"
< ROW;
INSERT-- é
into -- it;s "a"
"t" values--
(NULL,
'A');
SELECT *-- é
from
"t"	A
Where "é"	is
NULL	OR "é"--
<
'it''s'--
and
"é"  =  'zz';
INSERT INTO "t" VALUES (NULL, 'a'), ('ab', 'é');
SELECT "é", ROW FROM "t" A;
