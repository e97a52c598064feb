-- Made at random. The text comes from a rendering of the language that shares nothing with the engine.
AT TIMESTAMP '2011-01-01 00:00:00';
CREATE TABLE V (X VARCHAR(003) NOT NULL, END DATE, "q""q" INT);
SELECT X AS M FROM V AS B;
INSERT INTO V VALUES ('a ', DATE '2011-01-10', 1), ('a', DATE '2011-01-04', 0);
DROP TABLE NOSUCH;
UPDATE
V
set -- it;s "a"
"q""q"
=
"q""q" -- it;s "a"
+
1-- é
where -- it;s "a"
'日本'	NOT--
between  X And	'b';
INSERT INTO V VALUES ('b', DATE '2011-01-10', 2), ('a', (DATE '2011-01-04'), (2));
UPDATE V SET "q""q" = 3 WHERE 3 NOT IN (0, 2 + 2) OR "q""q" >= "q""q";
SELECT -1, X, END FROM V B WHERE B."q""q" NOT BETWEEN "q""q" AND 1 AND X <= X OR "q""q" > 0 AND END NOT BETWEEN DATE '2011-01-04' AND DATE '2011-01-04';
SELECT * FROM V;
SELECT V.END AS M, "q""q", V.END FROM V;
SELECT * FROM V;
SELECT "q""q" FROM V WHERE "q""q" = 1 AND 1 = 1 AND DATE '2011-02-30' IS NULL AND 9223372036854775807 + 1 > 0;
SELECT * FROM V R;
Update V
SET -- it;s "a"
END
=--
DATE  '2011-01-04',-- é
X =-- é
'''''';
CREATE TABLE "x y" (K BIGINT, "a" INT, SYS_S TIMESTAMP(9999999999999999999999999) GENERATED ALWAYS AS ROW START NOT NULL, SYS_E TIMESTAMP WITHOUT TIME ZONE GENERATED ALWAYS AS ROW END, PERIOD FOR SYSTEM_TIME (SYS_S, SYS_E)) WITH SYSTEM VERSIONING;
DELETE FROM V WHERE DATE '2011-01-09' <= DATE '2011-01-04' AND ("q""q" < "q""q" * 4611686018427387904 * 2 * 0 AND "q""q" IN (3));
SELECT * FROM V AS Q;
UPDATE V SET X = END WHERE "q""q" IN (0, -1) OR (NOSUCH IN ('𝄞', X) OR X BETWEEN V.X AND 'b' AND (0) < 1) AND ("q""q") <= V."q""q";
delete -- it;s "a"
FROM-- é
v--
Where
V."q""q"-- é
<
"q""q";
INSERT INTO v--
(End,-- é
"q""q", X)
Values--
(date '2011-01-04', 0,
'A');
UPDATE V SET END = V.END, X = ('it''s') WHERE X >= 'A';
INSERT INTO V VALUES ('ab', DATE '2011-01-10', 1);
INSERT INTO V VALUES (NULL, NULL, 2 * 0);
INSERT INTO V (END, "q""q", X) VALUES (DATE '2011-01-10', 3, '|'), (DATE '2011-01-09', 2, 'b'), (DATE '2011-01-03', -1 + 1 - 2, 'ab');
SELECT--
"q""q"--
as A,  x, -- it;s "a"
X--
As-- é
"o p"--
FROM	V AS
"z";
SELECT 9223372036854775808 -- it;s "a"
FROM	nosuch;
UPDATE
v
SET
X	=
null -- it;s "a"
WHERE X
>=--
 ('
');
UPDATE V SET END = (END);
SELECT "q""q", B."q""q", X FROM V AS B;
CREATE
TABLE "t" (Y--
varchar(1) ,  "SELECT"
VARCHAR(10),
SYS_S	timestamp(6)  GENERATED
ALWAYS  AS	ROW	START,
sys_e  TIMESTAMP Generated  ALWAYS
AS-- é
ROW -- it;s "a"
END,
period
FOR SYSTEM_TIME
(sys_s ,
SYS_E)) WITH-- é
SYSTEM--
versioning;
