-- Made at random. The text comes from a rendering of the language that shares nothing with the engine.
AT TIMESTAMP '2011-01-01 00:00:00';
CREATE  TABLE-- é
"x y" -- it;s "a"
(X--
timestamp,--
"a b"--
VARCHAR(65535),  S  TIMESTAMP (0)-- é
GENERATED -- it;s "a"
ALWAYS--
AS -- it;s "a"
row START,  SYS_E TIMESTAMP	WITHOUT  TIME
ZONE-- é
GENERATED  ALWAYS-- é
AS--
ROW  END,
period  FOR SYSTEM_TIME
(S,--
sys_e), UNIQUE
(X)) -- it;s "a"
With	system-- é
versioning;
UPDATE "x y" FOR PORTION OF   P FROM DATE '2011-01-06' TO DATE '2011-01-01' SET X = S ;
INSERT INTO "x y" VALUES (TIMESTAMP '9999-12-31 23:59:59.999998999999', 'zz'), (TIMESTAMP '2011-01-01 07:00:00', 'a');
at	TIMESTAMP '2011-01-02 00:00:00';
INSERT INTO "x y" VALUES (TIMESTAMP '2011-01-01 00:00:00', 'b'), (NULL, 'é');
INSERT INTO "x y" VALUES (TIMESTAMP '0001-01-01 00:00:00', 'b');
SELECT TIMESTAMP '2011-01-01 24:00:00' FROM "x y" WHERE X = TIMESTAMP '2011-01-01 01:00:00';
INSERT--
INTO-- é
"x y" VALUES	(TIMESTAMP-- é
'2011-01-02 00:00:00', 'ab');
INSERT INTO "x y" SELECT TIMESTAMP '0001-01-01 00:00:00', "a b" FROM "x y";
INSERT INTO "x y" SELECT TIMESTAMP '2011-01-01 00:00:00', "a b" FROM "x y" FOR SYSTEM_TIME AS OF TIMESTAMP '2011-01-02 00:00:00.000002' WHERE PERIOD (S, "x y".X) PRECEDES PERIOD (S, "x y".S);
START TRANSACTION;
INSERT INTO "x y" VALUES (TIMESTAMP '2011-01-02 00:00:00.0000029', ('A')), (TIMESTAMP '2011-01-02 00:00:00', ('a'));
SELECT 1,--
Q. SYS_E,
"x y".X FROM "x y" q JOIN "x y"--
On  Q.SYSTEM_TIME -- it;s "a"
IMMEDIATELY	SUCCEEDS
PERIOD
(Q.X,
(TIMESTAMP	'2011-01-02 00:00:00' )) 
Or
("x y".SYSTEM_TIME overlaps -- it;s "a"
Q.System_time )
AND
"x y".SYSTEM_TIME
OVERLAPS "x y".SYSTEM_TIME
and timestamp
'0001-01-01 00:00:00.000001'--
is -- it;s "a"
NULL;
INSERT INTO "x y" ("a b") VALUES ('');
SELECT-- é
* from  "x y"--
FOR
SYSTEM_TIME FROM
TIMESTAMP
'2011-01-01 04:00:00' -- it;s "a"
TO
TIMESTAMP '2011-01-02 00:00:00.000003';
UPDATE "x y"
set  X--
=-- é
TIMESTAMP  '0001-01-01 00:00:00'-- é
where
SYSTEM_TIME  IMMEDIATELY Precedes  SYSTEM_TIME;
select
SUM((0) ), -- it;s "a"
2--
AS
A, --
"x y".X -- it;s "a"
as -- it;s "a"
m-- é
FROM--
"x y"-- é
FOR
system_time as
OF -- it;s "a"
TIMESTAMP-- é
'2011-01-01 00:00:00'
GROUP
By
"x y".X
HAVING	PERIOD-- é
(MIN(S),  Min("x y".X) )	contains
TIMESTAMP -- it;s "a"
'2011-01-02 00:00:00.000002'-- é
Order	by 3 Asc;
UPDATE "x y" SET X = X, "a b" = 'A';
COMMIT;
DELETE FROM "x y" WHERE SYSTEM_TIME SUCCEEDS SYSTEM_TIME;
CREATE -- it;s "a"
Table--
LOG
("a b"--
VARCHAR(1)-- é
NOT--
null,
C INTEGER  not NULL, START--
int, -- it;s "a"
F
DATE, G DATE,
period  FOR P--
(F,-- é
g), CONSTRAINT-- é
c1  Primary
KEY--
("a b"));
AT
TIMESTAMP '2011-01-01 23:00:00.000004';
UPDATE "x y"	SET "a b" =
'' WHERE x
<  timestamp	'2011-01-02 00:00:00.000003';
UPDATE "x y" SET  "a b"
=	"a b", X	=--
TIMESTAMP '2011-01-02 00:00:00.000004'
WHERE SYSTEM_TIME	immediately PRECEDES system_time
OR X	NOT -- it;s "a"
IN
(TIMESTAMP
'2011-01-02 00:00:00.000006', -- it;s "a"
(x),
X);
UPDATE "x y" SET X = ("x y".S) WHERE "x y"."a b" NOT IN (("a b"));
START TRANSACTION;
SELECT * FROM "x y" FOR SYSTEM_TIME AS OF TIMESTAMP '2011-01-01 00:00:00';
AT TIMESTAMP;
SELECT ALL MAX(B."a b"), B."a b" FROM LOG, "x y" FOR SYSTEM_TIME AS OF TIMESTAMP '2011-01-02 00:00:00.000005' B WHERE C <= 2 AND SYSTEM_TIME SUCCEEDS SYSTEM_TIME GROUP BY B."a b";
SELECT ALL MIN('zz'), MAX("a b") AS A, COUNT(*) FROM "x y" FOR SYSTEM_TIME BETWEEN TIMESTAMP '0001-01-01 00:00:00' AND TIMESTAMP '2011-01-02 00:00:00.000002' AS R WHERE R.SYSTEM_TIME SUCCEEDS SYSTEM_TIME OR "a b" NOT IN ('ab');
