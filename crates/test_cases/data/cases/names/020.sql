-- Made at random. The text comes from a rendering of the language that shares nothing with the engine.
CREATE -- it;s "a"
TABLE--
"t"   (ROW
INT, S
Timestamp--
WITHOUT TIME
ZONE
GENERATED ALWAYS--
As
ROW
START, 	E  Timestamp	WITHOUT-- é
TIME
ZONE
GENERATED  Always
AS -- it;s "a"
ROW-- é
end,	Period
for SYSTEM_TIME--
(S,	E))--
With	system--
VERSIONING;
CREATE TABLE--
EMP	(N--
INT, A BIGINT ,
SYS_S -- it;s "a"
TIMESTAMP(6)--
Without TIME
Zone-- é
Generated	always  AS -- it;s "a"
ROW
start, -- it;s "a"
e-- é
TIMESTAMP -- it;s "a"
generated
ALWAYS  as row END, 	Period
FOR	System_time  (Sys_s,--
E))
WITH SYSTEM -- it;s "a"
VERSIONING;
CREATE TABLE "x y" (C1 VARCHAR(2), Y INTEGER, WORK BIGINT, SYS_S TIMESTAMP WITHOUT TIME ZONE GENERATED ALWAYS AS ROW START, E TIMESTAMP(12) GENERATED ALWAYS AS ROW END NOT NULL, PERIOD FOR SYSTEM_TIME (SYS_S, E)) WITH SYSTEM VERSIONING;
UPDATE EMP SET N = A, A = N WHERE A < -1 AND NOT SYS_S < TIMESTAMP '9999-12-31 23:59:59.999999' OR N * 4611686018427387904 > 1 AND A < 1;
INSERT INTO "x y" VALUES (NULL, 9223372036854775807 - 2 - 3, 2), ('a', 1, 2), (NULL, -9223372036854775807, 0);
UPDATE "t" SET E = 'a';
SELECT N FROM EMP WHERE nocol = 1 AND 9223372036854775808 IS NULL;
INSERT INTO "t" VALUES (3);
INSERT INTO "t" (NOSUCH) VALUES (1), (2);
SELECT * FROM "t" FOR SYSTEM_TIME AS OF TIMESTAMP '2011-01-01 00:00:00';
UPDATE -- it;s "a"
"t" -- it;s "a"
SET  Row -- it;s "a"
= ROW--
+ -- it;s "a"
1;
INSERT INTO "t" VALUES (-1);
select	Y, -- it;s "a"
WORK	From
"x y"	WHERE  "x y".y  in (-4611686018427387904,--
(-1));
insert -- it;s "a"
INTO	Emp
values (2,-- é
2);
UPDATE "x y" SET Y = WORK WHERE C1 NOT BETWEEN 'b' AND 'ab';
SELECT
TIMESTAMP -- it;s "a"
'2011-01-01 07:00:00'-- é
from Emp--
q WHERE -- it;s "a"
3	IN--
(1,
N);
INSERT INTO EMP VALUES (1, 1);
CREATE TABLE t (x CHAR(3));
Select	R.E,  A--
FROM emp
for
SYSTEM_TIME
FROM
TIMESTAMP-- é
'0001-01-01 00:00:00.000005'  To	Timestamp '0001-01-01 00:00:00.000008'
AS	r Where	1 IN (N) And--
SYS_S  =
Timestamp -- it;s "a"
'0001-01-01 00:00:00.000001'
AND--
r .E
not--
in -- it;s "a"
(timestamp  '0001-01-01 00:00:00.000006', TIMESTAMP	'0001-01-01 00:00:00.000002')
or  Date -- it;s "a"
'2011-01-02'	In  (Date  '2011-01-05', 
DATE--
'0001-01-01');
INSERT INTO "x y" (C1, Y, WORK) VALUES ('ab', 1, 2), ('ab', (0), 1), ('b', -1, NULL);
INSERT INTO "x y" (C1, Y, WORK) VALUES (1, 1, 1);
DELETE -- it;s "a"
FROM	"t"	Where  "t".s between -- it;s "a"
E-- é
AND S -- it;s "a"
OR
ROW -- it;s "a"
* 9223372036854775807 <>  1
and
ROW
=
2;
DELETE FROM EMP;
INSERT INTO EMP VALUES (-1, 1);
START
TRANSACTION;
SELECT * FROM "x y";
UPDATE "t" SET ROW = 1;
SELECT c1 FROM-- é
"x y"	Where-- é
WORK
<= -1;
SELECT 'b', A FROM EMP;
UPDATE EMP SET N = 2 WHERE A IS NOT NULL;
