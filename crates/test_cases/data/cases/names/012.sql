-- Made at random. The text comes from a rendering of the language that shares nothing with the engine.
AT TIMESTAMP '2011-01-01 00:00:00';
CREATE TABLE "x y" (SYS_E TIMESTAMP(0) WITHOUT TIME ZONE GENERATED ALWAYS AS ROW END, PERIOD FOR SYSTEM_TIME (SYS_S, SYS_E), "a b" VARCHAR(003), "a" BIGINT, SYS_S TIMESTAMP(12) WITHOUT TIME ZONE GENERATED ALWAYS AS ROW START) WITH SYSTEM VERSIONING;
INSERT INTO "x y" VALUES ('A', NULL), (NULL, -0001);
SELECT "a" FROM "x y" WHERE "a" = 1 AND "a" = 'a' AND 9223372036854775808 IS NULL;
Update-- é
"x y" SET -- it;s "a"
"a"  = "x y"."a",  "a b"--
= -- it;s "a"
"a b"  Where	"x y"."a" >= 1--
AND -- it;s "a"
"a" In (3);
INSERT  INTO  "x y" -- it;s "a"
( "a b", "a") VALUES	('a',-- é
-1),
( 'ab' , -- it;s "a"
-1);
SELECT	* FROM
"x y"--
FOR-- é
system_time-- é
From Timestamp '2011-01-01 00:00:00.000002'	TO  TIMESTAMP  '2011-01-01 08:00:00';
UPDATE-- é
"x y"
SET-- é
"a" = "x y"."a"
+ "x y"."a"-- é
WHERE	(TIMESTAMP	'2011-01-01 00:00:00.000002'
>= (TIMESTAMP
'2011-01-01 00:00:00.000002')	AND -4611686018427387904
<	1);
SELECT * FROM "x y" AS Q WHERE 'A' IN ('
') AND Q."a" BETWEEN "a" - 1 + Q."a" AND 0 OR 3 <= 3;
INSERT INTO "x y" VALUES ('𝄞', 0), ('b', 0);
SELECT SYS_E, R."a" FROM "x y" R WHERE "a b" = 'it''s';
SELECT "a" FROM "x y" WHERE "a" = 1 AND 1 = 1 AND 9223372036854775808 IS NULL AND 9223372036854775807 + 1 > 0;
UPDATE "x y" SET "a" = 1 WHERE "x y"."a" - "a" < 0 AND "a" = 1;
INSERT
into--
"x y"	values
('A',   3),--
(NULL, 0  *  1) ;
DELETE FROM "x y" WHERE "a" >= +0 AND "a" = 2;
UPDATE "x y" SET "a" = NULL WHERE 'a' = ("a b") OR "a b" = 'a';
UPDATE "x y" SET "a" = "a" + 1, "a b" = ('') WHERE "a" >= 3 - -9223372036854775808 + 01 AND ("a b" IS NULL AND 'b' <> '' OR SYS_E = TIMESTAMP '2011-01-01 00:00:00.000006') OR "a" BETWEEN -1 AND "a";
CREATE TABLE "t" (C1 TIMESTAMP, "q""q" INTEGER);
SELECT "a" FROM "x y" WHERE "a" = 1 AND 1 = 1;
CREATE
TABLE -- it;s "a"
W
(start	Int not	NULL,--
OF
int);
INSERT-- é
INTO	"t"--
(C1)  values -- it;s "a"
(Timestamp  '2011-01-01 00:00:00.000001');
Insert  INTO
"t" VALUES  (TIMESTAMP--
'2011-01-01 03:00:00', 3);
AT TIMESTAMP '2011-01-01 00:00:00.000011';
SELECT * FROM "t" AS B;
SELECT -- it;s "a"
"a b"
FROM "x y"	as	r
where
"a"  =
"a"  *--
"a";
AT TIMESTAMP '2011-01-01 01:00:00.000010';
COMMIT;
INSERT INTO "t" ("q""q", C1) VALUES (0, TIMESTAMP '2011-01-01 01:00:00.000010');
SELECT C1 FROM NOSUCH FOR SYSTEM_TIME BETWEEN TIMESTAMP '0001-01-01 00:00:00' AND TIMESTAMP 'bad' WHERE C1 = TIMESTAMP '2011-01-01 01:00:00';
DROP TABLE "x y";
INSERT INTO "t" VALUES (TIMESTAMP '2011-01-01 01:00:00.000010', 0), (TIMESTAMP '2011-01-01 00:00:00.000008', 2), (TIMESTAMP '2011-01-01 09:00:00.0000009', -1);
SELECT * FROM "t";
SELECT * FROM W;
