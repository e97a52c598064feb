-- Made at random. The text comes from a rendering of the language that shares nothing with the engine.
AT TIMESTAMP '2011-01-01 00:00:00';
AT TIMESTAMP '2010-12-31 23:59:59.999999';
create	TABLE
"t"--
(Y BIGINT,-- é
DS DATE,	de-- é
Date,-- é
period--
FOR "p q" (DS, -- it;s "a"
DE ));
CREATE--
Table-- é
U (k  INTEGER,  "é" DATE,-- é
"a b"--
bigint,
F--
TIMESTAMP,-- é
G
TIMESTAMP WITHOUT
TIME
ZONE,--
PERIOD -- it;s "a"
FOR "p q"	(F, -- it;s "a"
G));
SELECT U.G C2, "a b" FROM U WHERE ('b' IN ('𝄞', ('A'), 'A') AND U."p q" OVERLAPS "p q" OR ("a b" < K AND "p q" IMMEDIATELY PRECEDES PERIOD (G, G)) AND U."p q" SUCCEEDS "p q" AND "p q" IMMEDIATELY PRECEDES "p q");
INSERT INTO "t" (DS, DE) VALUES (DATE '2011-01-03', DATE '2011-01-07'), (DATE '2011-00-10', (DATE '2011-01-09'));
SELECT "é", "é" FROM U FOR SYSTEM_TIME BETWEEN TIMESTAMP '2011-01-01 00:00:00.0000009' AND TIMESTAMP '2011-01-01 08:00:00' WHERE U."p q" OVERLAPS "p q";
SELECT  de, DS  FROM-- é
"t"-- é
"z"-- é
Where -- it;s "a"
("p q"
Contains  "z". "p q"--
AND
"p q"-- é
IMMEDIATELY PRECEDES	"p q")-- é
AND	PERIOD -- it;s "a"
(DATE--
'2011-01-01',	Ds )
CONTAINS -- it;s "a"
"z"."p q";
INSERT INTO U ("a b", F, G) VALUES ((+0001), TIMESTAMP '2011-01-01 05:00:00', TIMESTAMP '2011-01-01 06:00:00'), ((-1), TIMESTAMP '2011-01-01 05:00:00', TIMESTAMP '2011-01-01 07:00:00');
SELECT nosuch + 'a' FROM NOSUCH FOR SYSTEM_TIME AS OF TIMESTAMP '2010-12-31 23:59:59.999999';
SELECT G, "é" C2 FROM U WHERE "p q" OVERLAPS U."p q" OR 3 IN (0, -(-9223372036854775808) * "a b") AND NOT K = 1 AND (NOT "p q" SUCCEEDS PERIOD ((F), TIMESTAMP '2011-01-01 00:00:00'));
INSERT Into U
(K,--
"a b",
G, -- it;s "a"
"é",--
F)--
VALUES (0,-- é
2,	TIMESTAMP--
'2011-01-01 06:00:00',  DATE	'2011-01-10', TIMESTAMP--
'2011-01-01 05:00:00');
INSERT INTO U VALUES (1, DATE '2011-01-02', 1, NULL, TIMESTAMP '2011-01-11 01:00:00');
Create-- é
Table -- it;s "a"
Log  ("a b"-- é
Integer,
of
Bigint,-- é
without timestamp(12)-- é
WITHOUT	TIME	ZONE);
insert	INTO  NOSUCH
values  (-1);
CREATE TABLE EMP (A INTEGER, B VARCHAR(0), C DATE, D TIMESTAMP(13), PERIOD FOR P (C, D));
SELECT x FROM t WHERE (((((((((((((((((((((((((((((((((((((((((((((((((((((((((((((((((x))))))))))))))))))))))))))))))))))))))))))))))))))))))))))))))))) = 1;
UPDATE U SET K = 9223372036854775807 * 2 WHERE nocol = 1 AND 1 = 1 AND 9223372036854775807 + 1 > 0;
INSERT
INTO LOG-- é
values -- it;s "a"
(null, -1,	TIMESTAMP  '2010-12-31 23:59:59.999998'), -- it;s "a"
( -1, 1, TIMESTAMP	'2011-01-01 00:00:60');
INSERT INTO "t" (Y, DE, DS) VALUES (3, DATE '2011-01-14', DATE '2011-01-10'), (NULL, DATE '2011-01-12', DATE '2011-01-07');
UPDATE "t" SET Y = 0;
SELECT * FROM U;
INSERT INTO U (K, "é", "a b", F, G) VALUES (1, DATE '2011-01-02', 1, TIMESTAMP '2011-01-01 01:00:00', TIMESTAMP '2011-01-01 01:00:00');
SELECT
"é"-- é
From U "z"
WHERE
"é"
NOT--
IN (DATE -- it;s "a"
'2011-01-07' );
INSERT INTO "t" -- it;s "a"
VALUES  ( -1,
DATE -- it;s "a"
'2011-01-01', DATE
'2011-01-02'), (2, Date  '2011-01-10' ,  Date
'2011-01-14'), -- é
(2,-- é
DATE '2011-01-02',-- é
DATE  '2011-01-03');
SELECT TIMESTAMP '2011-01-01 05:00:00.000000999999'-- é
FROM  "t" b;
INSERT INTO U VALUES (NULL, DATE '2011-01-10', 3, TIMESTAMP '2011-01-01 02:00:00', TIMESTAMP '2011-01-01 02:00:00.000001');
SELECT K FROM U;
INSERT INTO U VALUES (3, DATE '2011-01-01', 3, TIMESTAMP '2011-01-01 08:00:00', TIMESTAMP '2011-01-01 09:00:00'), (-1, (DATE '2011-01-08'), -1 * 2, TIMESTAMP '2011-01-01 01:00:00', TIMESTAMP '2011-01-01 02:00:00');
UPDATE U SET "é" = (TIMESTAMP '2011-01-01 09:00:00');
DROP TABLE LOG RESTRICT;
