-- Made at random. The text comes from a rendering of the language that shares nothing with the engine.
AT TIMESTAMP '2011-01-01 00:00:00';
create TABLE
U	(V
Varchar(003) ,	row
varchar(2) NOT -- it;s "a"
Null, -- it;s "a"
"a" VARCHAR(2)  NOT
NULL);
DROP TABLE NOSUCH;
UPDATE U SET V = "a" WHERE -1 >= 0 - 2 AND ROW >= '; --';
Update
U SET row
 =	( 'ab') Where  ('A')	 >= U.ROW
And--
'a' =
'a';
AT TIMESTAMP '0000-12-31 23:59:59';
Insert-- é
INTO
U	VALUES--
( 'A', -- it;s "a"
NULL, -- it;s "a"
'A' ),--
('a', -- it;s "a"
'b', '"' ),
('it''',  -- it;s "a"
'日本',  Null );
select	*
FROM	U--
WHERE  U.V-- é
is NULL;
INSERT INTO U VALUES (NULL, '
', 'a');
SELECT ROW AS "o p", ROW AS C2 FROM U AS B WHERE ROW < 'A';
CREATE TABLE
"x y"-- é
("é"-- é
INTEGER Not -- it;s "a"
null, 	"q""q" -- it;s "a"
INT,
s
TIMESTAMP -- it;s "a"
GENERATED	always-- é
as	ROW
START,	E -- it;s "a"
TIMESTAMP(12) -- it;s "a"
GENERATED--
Always	AS  row	END, PERIOD--
For	SYSTEM_TIME
(S,
e))
WITH System	VERSIONING;
SELECT * FROM U AS "z" WHERE ROW <> "z".V;
INSERT INTO "x y" ("q""q", "é") VALUES (1, +0001 + 3);
SELECT * FROM U AS Q WHERE 'ab' BETWEEN (ROW) AND ("a");
INSERT INTO "x y" VALUES (NULL, 1);
SELECT "a", A.ROW, ROW FROM U A WHERE (ROW <= ('|')) AND A."a" <> 'a';
SELECT * FROM U;
SELECT	* -- it;s "a"
From	"x y" FOR  system_time	Between--
TIMESTAMP	'2011-01-01 00:00:00.000001'
AND	timestamp	'2011-01-01 09:00:00';
INSERT INTO U VALUES ('', '𝄞', '日本'), ('b', 'b', 'b');
START TRANSACTION;
INSERT INTO U VALUES ('ab', 'A', ''), ('', 'a ', 'b'), ('A', 'a', 'ab');
SELECT * -- it;s "a"
FROM  "x y" AS
R;
SELECT "a", "a" FROM U WHERE ((ROW < 'a '));
INSERT INTO "x y" VALUES (-1, NULL);
SELECT NULL FROM t;
DROP TABLE U RESTRICT;
INSERT INTO "x y" VALUES ((1), NULL);
at
TIMESTAMP -- it;s "a"
'2011-01-01 00:00:01.000004';
INSERT
INTO
"x y"
("é") VALUES (1), (-1);
INSERT INTO "x y" ("q""q", "é") VALUES (1, 0), (-1, 0), (0, 1), (NULL, 1), (2, 3), (0, 0);
COMMIT||WORK;
ROLLBACK;
SELECT * FROM U;
SELECT * FROM "x y";
SELECT * FROM "x y" FOR SYSTEM_TIME BETWEEN TIMESTAMP '0001-01-01 00:00:00' AND TIMESTAMP '9999-12-31 23:59:59.999999999999';
SELECT * FROM "x y" FOR SYSTEM_TIME AS OF TIMESTAMP '2011-01-01 00:00:00';
SELECT * FROM "x y" FOR SYSTEM_TIME AS OF TIMESTAMP '2011-01-01 00:00:00.000003';
