-- Made at random. The text comes from a rendering of the language that shares nothing with the engine.
AT TIMESTAMP '2011-01-01 00:00:00';
CREATE TABLE T (PERIOD FOR "p q" (DS, G), DS DATE, G DATE, START INT, PRIMARY KEY (END, "p q" WITHOUT OVERLAPS), UNIQUE (END, "p q" WITHOUT OVERLAPS), END BIGINT, SYS_E TIMESTAMP(0) GENERATED ALWAYS AS ROW END NOT NULL, PERIOD FOR SYSTEM_TIME (S, SYS_E), PRIMARY KEY (END, "p q" WITHOUT OVERLAPS), S TIMESTAMP WITHOUT TIME ZONE NOT NULL GENERATED ALWAYS AS ROW START) WITH SYSTEM VERSIONING;
Create
TABLE U ("é"--
VARCHAR(10),  "q""q"	DATE,
CHECK  ("é"-- é
<
("é")	OR
"q""q"	IS
NOT  NULL)) ;
SELECT Q."é", TIMESTAMP '2011-01-01 03:00:00.0' FROM U Q ORDER BY 2 ASC, 1 ASC;
Insert-- é
Into U ("é") --
SELECT -- it;s "a"
Distinct -- it;s "a"
2 ,	U."é"--
FROM u Left--
OUTER
Join-- é
u-- é
Q ON	q. "q""q" -- it;s "a"
not -- it;s "a"
IN
(U."q""q", DATE
'2011-01-03',  Date	'2011-01-06')--
WHERE U."q""q" >--
U."q""q" AND	q ."é"  =--
'it''s'  AND	'
'-- é
IN
(q."é", 'ab');
INSERT
Into U values
('a',
DATE--
'2011-01-05');
INSERT	into -- it;s "a"
u-- é
Select	"é",  ("q""q") From-- é
U;
SELECT DISTINCT "q""q" FROM U AS A WHERE NOT "é" NOT IN ('A') ORDER BY 1 DESC;
DELETE FROM--
u  WHERE "q""q" >=--
date
'2011-01-03';
CREATE TABLE U (K INTEGER, C1 VARCHAR(003), F DATE, DE DATE, PERIOD FOR P (F, F), S TIMESTAMP WITHOUT TIME ZONE GENERATED ALWAYS AS ROW START, E TIMESTAMP(12) GENERATED ALWAYS AS ROW END, PERIOD FOR SYSTEM_TIME (S, E), PRIMARY KEY (C1)) WITH SYSTEM VERSIONING;
INSERT INTO U VALUES ('b', DATE '2011-01-06');
CREATE TABLE W (B BIGINT, WITHOUT INT NOT NULL);
INSERT INTO U VALUES ('A', DATE '2011-01-03'), (NULL, DATE '2011-01-04'), ('A', DATE '1969-12-31'), ('b', DATE '2011-01-02'), ('A', DATE '2011-01-09'), ('a', DATE '2011-01-06');
insert-- é
INTO  u	("q""q",
"é")
Values--
(NULL,  -- it;s "a"
'"') ;
INSERT INTO W SELECT 00, (-0001) FROM U;
START TRANSACTION;
UPDATE -- it;s "a"
W--
SET -- it;s "a"
B-- é
=
3;
UPDATE U SET "é" = "é", "q""q" = NULL WHERE "é" <> ("é") AND NOT 'a' BETWEEN 'é' AND 'a' AND U."é" NOT BETWEEN "é" AND ('ab');
INSERT INTO NOSUCH VALUES (1);
COMMIT WORK;
ROLLBACK;
INSERT INTO W VALUES (-1, 3), (NULL, 0);
DELETE FROM W WHERE W.B BETWEEN WITHOUT AND 2 AND '日本' = 'A';
AT TIMESTAMP '2011-01-01 00:00:00.000009';
UPDATE W SET WITHOUT = B, B = WITHOUT WHERE W.WITHOUT = +0003 AND NOT B <= B OR W.B >= 3 * WITHOUT * -1;
CREATE-- é
Table "t" -- it;s "a"
("SELECT"
BIGINT,-- é
k
INTEGER, F--
DATE,  DE-- é
DATE, -- it;s "a"
PERIOD	FOR -- it;s "a"
EP  (F,  DE),  -- it;s "a"
PRIMARY  Key--
("SELECT", K,
ep--
WITHOUT OVERLAPS));
INSERT--
INTO-- é
U -- it;s "a"
values -- it;s "a"
(NULL,	DATE -- it;s "a"
'2011-01-03');
AT TIMESTAMP '2011-01-01 00:00:00.000012';
START TRANSACTION;
DELETE FROM U WHERE "é" >= "é" AND U."é" IN ("é", ("é"), "é");
UPDATE-- é
W  set	WITHOUT -- it;s "a"
=-- é
0002,
B  = -- it;s "a"
B
+--
1 WHERE
W.B < -9223372036854775808;
ROLLBACK;
SELECT * FROM U;
SELECT * FROM W;
SELECT * FROM "t";
 -- end
