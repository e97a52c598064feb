-- Made at random. The text comes from a rendering of the language that shares nothing with the engine.
AT TIMESTAMP '2011-01-01 00:00:00';
CREATE TABLE EMP ("é" VARCHAR(65535) NOT NULL, B VARCHAR(3), OF DATE);
DELETE FROM EMP WHERE OF NOT BETWEEN DATE '2011-01-08' AND OF;
UPDATE EMP SET "é" = B;
INSERT
INTO--
Emp-- é
VALUES
 ('"',-- é
'A', -- it;s "a"
(DATE	'2011-01-04')), ('zz',-- é
'ab',
Date-- é
'2011-01-02');
INSERT INTO EMP VALUES ('a', 'é', DATE '2011-01-04'), ('', 'A', DATE '2011-01-02'), ('b', NULL, DATE '2011-01-05');
START TRANSACTION;
COMMIT WORK;
INSERT--
INTO
EMP	values
 (NULL ,  'ab',
DATE
'2011-01-02');
INSERT INTO EMP VALUES ('𝄞', NULL, DATE '2011-01-02'), ('ab', '', DATE '9999-12-31'), ('b', ('|'), DATE '2011-01-02');
SELECT * FROM EMP WHERE NOT 'ab' = B;
DELETE FROM EMP WHERE 'A' NOT BETWEEN 'ab' AND 'A' AND EMP."é" IS NULL;
INSERT-- é
INTO	Emp	VALUES-- é
('a',	'a', DATE '2011-01-02' ),  ('A',  'é',   date-- é
'2011-01-05');
select -- it;s "a"
*  From--
Emp;
DELETE
From--
EMP
WHERE--
B NOT in	((B),--
"é", 'b');
SELECT EMP.OF, OF FROM EMP;
update EMP-- é
set B	= 'ab' ,-- é
Of--
=
(Of)-- é
WHERE -- it;s "a"
OF
BETWEEN -- it;s "a"
DATE  '9999-12-31'-- é
AND Date
'2011-01-02' AND -- it;s "a"
EMP."é"--
<= '|' -- it;s "a"
OR -- it;s "a"
(Emp.B-- é
=	'é');
INSERT INTO EMP VALUES ('ab', 'A', DATE '2011-01-02');
SELECT * FROM NOSUCH;
DELETE FROM EMP WHERE "é" IS NULL AND EMP."é" = "é" OR ('b' IS NOT NULL);
SELECT * FROM EMP AS B;
AT TIMESTAMP '2011-01-01 00:00:00.000012';
SELECT * FROM EMP AS B;
INSERT INTO EMP VALUES ('é', 'ab', DATE '2011-01-07');
INSERT INTO EMP VALUES ('A', 'A', NULL), ('ab', NULL, DATE '2011-01-07');
SELECT * FROM EMP WHERE OF > OF;
INSERT INTO EMP VALUES ('ab', 'A', DATE '2011-01-02');
INSERT INTO EMP ("é", OF, B) VALUES ('b', DATE '2011-01-03', 'ab');
START TRANSACTION;
DROP TABLE EMP RESTRICT;
INSERT INTO EMP VALUES ('ab', NULL, DATE '2011-01-01'), ('a', 'A', DATE '2011-01-03');
