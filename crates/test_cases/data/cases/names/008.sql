-- Made at random. The text comes from a rendering of the language that shares nothing with the engine.
AT TIMESTAMP '2011-01-01 00:00:00';
CREATE TABLE "x y" (START INT, ACTION BIGINT, C1 VARCHAR(65535) NOT NULL, SYS_S TIMESTAMP GENERATED ALWAYS AS ROW START NOT NULL, SYS_E TIMESTAMP(0) WITHOUT TIME ZONE GENERATED ALWAYS AS ROW END NOT NULL, PERIOD FOR SYSTEM_TIME (SYS_S, SYS_E)) WITH SYSTEM VERSIONING;
CREATE TABLE T ("q""q" VARCHAR(65535));
DELETE FROM T WHERE NOT (NOT "q""q" <= "q""q" OR 'A' <> "q""q") OR T."q""q" < '日本' AND ("q""q" IN ("q""q", 'a', "q""q") AND "q""q" IS NOT NULL);
INSERT INTO "x y" VALUES (NULL, -1, '𝄞'), (-1, NULL, 'ab'), (1, 1, 'ab');
INSERT INTO "x y" VALUES (0000, 2, 'A'), (NULL, -01, 'A');
DELETE FROM "x y" WHERE NOT START NOT IN (START, 1);
DELETE--
From	"x y"
where 1
IN
 (1, -- it;s "a"
"x y".START);
DROP TABLE NOSUCH;
SELECT--
"q""q",  T."q""q"--
FROM
T Where -- it;s "a"
(NOT	'a' NOT-- é
BETWEEN
'a'  And 'A' AND (T."q""q"  >
'b' -- it;s "a"
and -- it;s "a"
NOT "q""q"--
>= -- it;s "a"
'𝄞' ) );
INSERT INTO T VALUES ('; --');
SELECT * FROM T WHERE "q""q" = '' OR NOT (T."q""q" <= "q""q" AND 'ab' = 'a') AND "q""q" = ('a');
CREATE TABLE V (OF VARCHAR(10), "SELECT" INT, ROW BIGINT);
START TRANSACTION;
INSERT INTO T VALUES ('A'), ('ab');
insert
INTO
V-- é
VALUES--
 ('A', 
3,-- é
0), (NULL, -1,--
-0001), (NULL,
1,
NULL );
SELECT DATE '2011-01-08', T."q""q", "q""q" FROM T;
Select-- é
"SELECT",--
"SELECT"  From-- é
V
WHERE V.of--
Is	NOT-- é
Null;
ROLLBACK;
DELETE FROM T;
INSERT INTO "x y" VALUES (2, 0, 'A'), (NULL, 0, 'zz');
DELETE	FROM--
"x y"--
WHERE -- it;s "a"
"x y".START-- é
IS--
null
AND-- é
(START - 4611686018427387904	<
0-- é
and
START-- é
>	0-- é
or  Action-- é
> "x y".Action--
*	START	-	"x y".action);
START TRANSACTION;
DROP TABLE V;
UPDATE
"x y"-- é
SET C1   =
C1;
INSERT INTO "x y" VALUES (-1, 3, 'a'), (1, -1, NULL);
INSERT INTO T VALUES ('b');
SELECT * FROM "x y" FOR SYSTEM_TIME AS OF TIMESTAMP '2011-01-01 00:00:00Z';
UPDATE T SET "q""q" = T."q""q" WHERE NOT "q""q" IS NULL AND NOT "q""q" <= T."q""q";
INSERT INTO T ("q""q") VALUES ('ab'), ('it''s');
SELECT -- it;s "a"
SYS_S,
SYS_S FROM--
"x y" Where--
ACTION
- --
4611686018427387904
<-- é
1-- é
and
Start <>-- é
1;
ROLLBACK;
SELECT * FROM "x y";
SELECT * FROM "x y" FOR SYSTEM_TIME BETWEEN TIMESTAMP '0001-01-01 00:00:00' AND TIMESTAMP '9999-12-31 23:59:59.999999';
SELECT * FROM "x y" FOR SYSTEM_TIME AS OF TIMESTAMP '2011-01-01 02:00:00';
SELECT * FROM "x y" FOR SYSTEM_TIME AS OF TIMESTAMP '2011-01-01 00:00:00.000005';
SELECT * FROM T;
SELECT * FROM V;
