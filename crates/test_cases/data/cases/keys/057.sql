-- Made at random. The text comes from a rendering of the language that shares nothing with the engine.
AT TIMESTAMP '2011-01-01 00:00:00';
CREATE
table
V (without
varchar(10)  NOT NULL,--
k
BIGINT, -- it;s "a"
Check
(WITHOUT
> -- it;s "a"
WITHOUT ), -- it;s "a"
UNIQUE
(WITHOUT),--
Constraint
c1	PRIMARY
key -- it;s "a"
(k, WITHOUT));
INSERT INTO V VALUES ('it''s', 2 * 3 - 2);
Select  Distinct
A.K, -- it;s "a"
A.K--
from V LEFT
JOIN-- é
V -- it;s "a"
R--
ON	V.WITHOUT--
=  -- it;s "a"
R.without	LEFT  OUTER JOIN v as	A
on
V.K--
in	( -1,  V.K
+ R.K) Where  (A.WITHOUT
NOT IN-- é
('A')--
AND
NOT	A.K =  3
and
R.K <= -- it;s "a"
-1) GROUP-- é
BY A.K ORDER--
BY  K
ASC;
SELECT
MIN(2), DATE
'2011-01-02'-- é
FROM
V	where
0-- é
=-- é
-1
GROUP-- é
BY K HAVING -- it;s "a"
(MAX(V.WITHOUT) <  MIN(WITHOUT) AND
NOT--
COUNT(Date--
'2011-01-06') -- it;s "a"
IN  (V.K,
MAX(K), MIN(v.K	-
K)))  AND	min((K))  > count(*)-- é
order BY -- it;s "a"
1--
DESC;
CREATE TABLE U (A INT, C INTEGER, Y VARCHAR(2));
insert Into U -- it;s "a"
values (1,-- é
NULL,	'a');
DELETE FROM U WHERE A IN (C + C);
UPDATE U
SET
A
= -- it;s "a"
C, -- it;s "a"
C
=  A
WHERE u.C -- it;s "a"
=	-1 OR
C
 + c
= -- it;s "a"
A;
INSERT INTO U VALUES (2, 0, 'ab'), (4294967296, 3, 'a');
UPDATE U SET A = NULL, Y = NULL WHERE U.C < A * C OR 0 IS NOT NULL;
UPDATE U SET Y = 'a' WHERE nocol = 1 AND -9223372036854775809 IS NULL;
INSERT INTO	V
(WITHOUT,
K)
values ( 'a', -- it;s "a"
-1);
insert Into
v
VALUES ('A',  1), ('A',
1);
INSERT INTO U (C, A) VALUES (-1, 0), (0, -1);
CREATE TABLE "x y" (N INT, B VARCHAR(003), DS DATE, DE DATE, PERIOD FOR EP (DS, DE), CHECK (N IN (0)));
SELECT -- it;s "a"
ALL
B.A,
b. A
C2,-- é
U.C FROM-- é
u,-- é
U-- é
AS
B;
INSERT INTO "x y" (N, B, DS, DE) VALUES (1, 'a', DATE '2011-01-02', NULL);
at TIMESTAMP--
'2011-01-01 00:00:00.000007';
SELECT Q.Y, U.Y FROM U AS Q INNER JOIN U ON Q.A <> (U.A) WHERE U.Y <= 'a' AND Q.Y > U.Y AND Q.Y IS NOT NULL OR Q.A * 9223372036854775807 <> 0 AND Q.A < 1 ORDER BY 2;
SELECT * FROM U AS A, U WHERE U.C BETWEEN U.C AND -1 AND DATE '2011-01-09' IS NOT NULL AND U.A BETWEEN 0 AND 3;
DELETE FROM U WHERE C = U.A;
INSERT INTO V (WITHOUT) VALUES ('A'), ('ab');
SELECT DISTINCT R.A, c FROM-- é
u r
WHERE
( Y--
is-- é
NULL) -- it;s "a"
ORDER
BY
1;
UPDATE U SET Y = (U.Y);
INSERT INTO V (K, WITHOUT) VALUES (-1, 'a'), (-1, 'A'), (-4611686018427387904, 'a');
SELECT DATE '2011-01-01', U.C AS C2, 'é' K FROM U AS "z" CROSS JOIN U LEFT OUTER JOIN V A ON U.A = K WHERE K >= "z".A + 0 GROUP BY U.C, "z".C;
INSERT
Into U  VALUES
(-01 , 1,--
'b');
DELETE FROM U WHERE U.C <> U.A;
DELETE FROM U WHERE A <> (A);
INSERT INTO U VALUES (DATE '2011-01-06', NULL, NULL), (3, (-1), SYSTEM);
