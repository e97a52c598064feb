-- Made at random. The text comes from a rendering of the language that shares nothing with the engine.
AT TIMESTAMP '2011-01-01 00:00:00';
CREATE TABLE W (PERIOD FOR P (DS, G), G DATE, "é" VARCHAR(10), DS DATE);
select 2--
*  3
-
-9223372036854775807,
G from  W--
AS Q;
INSERT INTO W VALUES (DATE '2011-01-01', 'a', DATE '2011-01-10'), (DATE '2011-01-04', NOSUCH, DATE '2011-01-03');
AT TIMESTAMP '2011-01-01 00:00:00.000001';
START TRANSACTION;
SELECT
"é", G,
G
as
K
from	W;
SELECT W.G AS C2, W.DS FROM W WHERE G IS NULL AND NOT (G IS NULL);
SELECT * FROM W;
SELECT DS FROM W;
UPDATE	W -- it;s "a"
SET
"é" -- it;s "a"
=  NULL;
INSERT INTO W VALUES (DATE '2011-01-13', ('"'), DATE '2011-01-10'), (DATE '2011-01-12', 'ab', DATE '2011-01-07');
SELECT "é",
g  M, -- it;s "a"
G FROM W
R
WHERE--
R.G
not--
in (g)--
and R."é"  in	("é");
INSERT INTO W ("é") VALUES ('A'), ('zz');
SELECT
"é", DS ,
B."é"
from-- é
W-- é
as-- é
B-- é
WHERE
"é"-- é
>= -- it;s "a"
B."é" And -- it;s "a"
(B.P succeeds-- é
P OR-- é
DATE
'2011-01-10' IS--
not null)
And-- é
PERIOD	(B .G, g)-- é
overlaps -- it;s "a"
PERIOD ((G),--
(ds))
OR  P--
OVERLAPS -- it;s "a"
P;
INSERT INTO W VALUES (DATE '2011-01-06', 'ab', DATE '2011-01-02');
UPDATE W SET DS = DS WHERE G <= DATE '2011-01-05';
COMMIT;
INSERT INTO W (G, "é", DS) VALUES (DATE '2011-01-02', 'b', DATE '2011-01-01'), (DATE '2011-01-03', NULL, DATE '2011-01-02');
SELECT "é", "é", DS FROM W;
UPDATE W set  "é"	=	'b', DS
= (G)	WHERE	W.g  BETWEEN -- it;s "a"
DATE	'2011-01-03' -- it;s "a"
AND DATE--
'2011-01-12';
SELECT -- it;s "a"
W ."é",
DS, G--
FROM
w--
Where  +1--
NOT
Between 1
+ 	0	AND  3;
insert -- it;s "a"
Into -- it;s "a"
W
VALUES
(DATE -- it;s "a"
'2011-01-09',  'a', -- it;s "a"
date '2011-01-07'), -- it;s "a"
(DATE
'2011-01-07',
NULL, Date -- it;s "a"
'2011-01-02');
UPDATE W SET G = W.G WHERE P OVERLAPS W.P;
UPDATE W SET "é" = "é" WHERE "é" <> 'A' AND PERIOD (W.DS, W.DS) EQUALS PERIOD (W.G, DS) AND "é" <> 'A';
UPDATE W SET "é" = 'a' WHERE "é" = 'a' AND 9223372036854775807 + 1 > 0;
SELECT-- é
"é"  As-- é
M, -- it;s "a"
g
FROM
W-- é
"z"-- é
where 1  <= 3;
SELECT -1 FROM W FOR SYSTEM_TIME BETWEEN TIMESTAMP '0001-01-01 00:00:00' AND TIMESTAMP 'bad' WHERE nocol = 1 AND 1 = 1;
START
transaction;
DELETE FROM NOSUCH WHERE q = 1;
INSERT
INTO-- é
W
VALUES  (DATE '2011-01-10',
'a',	DATE	'2011-01-07'), (date-- é
'2011-01-09',  'zz',	date '2011-01-06'),--
(date
'2011-01-15',--
'A',--
DATE--
'2011-01-10');
