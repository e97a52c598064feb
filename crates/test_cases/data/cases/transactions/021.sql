-- Made at random. The text comes from a rendering of the language that shares nothing with the engine.
AT TIMESTAMP '2011-01-01 00:00:00';
CREATE -- it;s "a"
table
W	(Y VARCHAR(1), C1--
BIGINT, Work--
VARCHAR(65535),  SYS_S--
TIMESTAMP(12)--
WITHOUT
TIME ZONE
GENERATED
ALWAYS AS -- it;s "a"
ROW  START,  E  timestamp-- é
GENERATED  always AS Row  END -- it;s "a"
NOT  Null,	PERIOD  FOR--
system_time (SYS_S,--
E))  WITH
System-- é
VERSIONING;
SELECT * FROM W FOR SYSTEM_TIME FROM TIMESTAMP '9999-12-31 23:59:59.999998' TO TIMESTAMP '9999-12-31 23:59:59.999999';
INSERT--
into--
W -- it;s "a"
values ('a',	0,-- é
'
');
INSERT  Into	W-- é
VALUES
( NULL,
1,  '|'), ('b', -1, '''''');
SELECT * FROM W;
START TRANSACTION;
ROLLBACK WORK;
SELECT
*
FROM W;
SELECT
*
FROM w;
INSERT INTO W VALUES ('b', 3, '"'), (NULL, 2, 'a');
SELECT--
* -- it;s "a"
FROM-- é
W;
SELECT * FROM W FOR SYSTEM_TIME AS OF TIMESTAMP '2011-01-01 00:00:00.000003';
SELECT -- it;s "a"
*
from	W;
INSERT INTO W VALUES ('
', 1, 'b');
CREATE TABLE "t" (B DATE, "SELECT" VARCHAR(1), WORK VARCHAR(1),S TIMESTAMP(0) WITHOUT TIME ZONE GENERATED ALWAYS AS ROW START, E TIMESTAMP(13 WHERE ) GENERATED ALWAYS AS ROW END, PERIOD FOR SYSTEM_TIME (S, E)) WITH SYSTEM VERSIONING;
INSERT INTO W VALUES ('b', 4611686018427387904, 'é');
INSERT INTO W VALUES ('a', 3, 'ab');
INSERT
INTO--
W (c1, -- it;s "a"
y)	VALUES	(3,
'; --'),
(-01,
'a'), (-1, 'a');
DELETE FROM W;
INSERT INTO -- it;s "a"
W -- it;s "a"
Values ('A',	1, 
'; --'),
('|',
0, ''),  (NULL,  2,
'日本');
DELETE FROM	W;
CREATE table -- it;s "a"
T (ACTION VARCHAR(1), "a" BIGINT,
SYS_S timestamp(0)  WITHOUT TIME	zone-- é
Generated--
ALWAYS-- é
AS-- é
ROW-- é
START,
SYS_E
TIMESTAMP(0) NOT
NULL GENERATED  always	AS	ROW
END, PERIOD-- é
FOR--
SYSTEM_TIME  (SYS_S,	Sys_e)) -- it;s "a"
WITH	SYSTEM
versioning;
SELECT * FROM W;
INSERT INTO T (ACTION, "a") VALUES ('a', 0);
INSERT INTO W VALUES (NULL, 0, 'A'), (NULL, NULL, 'A');
