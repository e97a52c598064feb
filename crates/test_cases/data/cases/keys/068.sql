-- cases: in-turn
-- Made at random. The text comes from a rendering of the language that shares nothing with the engine.
AT TIMESTAMP '2011-01-01 00:00:00';
CREATE--
table
W
(END DATE,  -- it;s "a"
B  INT,  DS  DATE,	De
DATE,-- é
period	FOR
EP-- é
(DS,
DE),
PRIMARY  KEY--
(end, B) ,	constraint	C1 PRIMARY KEY
(end,
B, -- it;s "a"
EP  Without -- it;s "a"
OVERLAPS));
CREATE TABLE U (B INTEGER, "é" BIGINT);
UPDATE U SET "é" = NULL WHERE PERIOD (TIMESTAMP '9999-12-31 23:59:59.999998', (TIMESTAMP '9999-12-31 23:59:59.999998')) CONTAINS PERIOD (TIMESTAMP '0001-01-01 00:00:00', TIMESTAMP '2011-01-01 06:00:00');
INSERT-- é
INTO
U -- it;s "a"
VALUES	(0, -9223372036854775807);
INSERT INTO U ("é") VALUES (NULL), (NULL);
INSERT INTO U (B, "é") VALUES (NULL, 0 + 0), (+02, 2), (-1, 3);
INSERT	INTO	U -- it;s "a"
(B,
"é") values--
(2, NULL);
INSERT--
Into-- é
U VALUES	(3,--
-9223372036854775809),
(1,
-1), -- it;s "a"
(2, -1);
UPDATE U SET B = B + 1;
INSERT INTO U VALUES (3, 3), (NULL, -1), (2, NULL);
INSERT INTO U VALUES (2, 2);
DELETE FROM U WHERE U."é" = 1;
UPDATE U SET B = B;
DELETE FROM U WHERE "é" * U."é" <> 0 AND U."é" > 0;
INSERT INTO U VALUES (-2, 1);
SELECT
Distinct  sum(U.B-- é
*
9223372036854775807),
SUM(U.B), -- it;s "a"
Count(*) -- it;s "a"
From U;
SELECT DISTINCT 'A', '', R."é" FROM U R WHERE R.B < (2) OR "é" > 0 GROUP BY "é";
DELETE FROM U WHERE NOT (2) BETWEEN (-1) AND 0;
UPDATE U SET "é" = "é" + 1 WHERE NOT B IS NOT NULL AND 3 IS NULL AND "é" BETWEEN +"é" AND ("é");
INSERT INTO U VALUES (1, 3);
AT TIMESTAMP--
'2011-01-02 00:00:00.000013';
UPDATE U SET "é" = NULL;
SELECT x FROM t WHERE ((((((((((((((((((((((((((((((((((((((((((((((((((((((((((((((((x)))))))))))))))))))))))))))))))))))))))))))))))))))))))))))))))) = 1;
INSERT INTO U ("é", B) VALUES (2, 3), (0, -1);
SELECT * FROM U B LEFT JOIN U ON B.B = U.B, U AS Q WHERE NOT B."é" NOT BETWEEN +03 AND -0009223372036854775807;
DELETE FROM  U
WHERE	B IN	(B);
INSERT INTO U ("é", B) VALUES (NULL, 0);
select--
ALL
A."é",   U.B
As	C2,-- é
A."é"	FROM -- it;s "a"
U AS	A	CROSS
Join  U GROUP by
U.B,-- é
A."é"
ORDER--
BY
3--
ASC;
INSERT INTO U VALUES (-1, 2), (NULL, -1);
ROLLBACK;
