-- Made at random. The text comes from a rendering of the language that shares nothing with the engine.
CREATE TABLE U (PERIOD FOR EP (DS, G), DS DATE, WITHOUT DATE, X VARCHAR(10), END VARCHAR(003), G DATE);
INSERT INTO U VALUES (DATE '2011-01-09', DATE '2011-01-04', '''''', NULL, DATE '2011-01-12');
INSERT INTO U VALUES (DATE '1969-12-31', NULL, 'b', 'A', DATE '1970-01-01');
SELECT * FROM U WHERE G IS NOT NULL AND 'ab' NOT BETWEEN (END) AND 'b';
INSERT INTO -- it;s "a"
U-- é
(G) --
VALUES  (DATE  '2011-01-09');
INSERT into U  VALUES--
(DATE-- é
'2011-01-03', date--
'2011-1-1',--
'b',--
'A',-- é
Date--
'2011-01-04');
UPDATE U SET WITHOUT = U.DS WHERE END NOT BETWEEN X AND END;
SELECT -- it;s "a"
U.without,-- é
U.END, -- it;s "a"
G	from	U;
UPDATE U SET X = 'A' WHERE X < X OR END NOT IN ('b', 'A');
DELETE FROM U WHERE U.X >= END OR U.END NOT IN ('é') AND EP SUCCEEDS EP;
Insert
INTO
U	(END, ds, -- it;s "a"
G)
VALUES-- é
( 'ab',--
DATE '2011-01-04', DATE  '2011-01-05') ;
INSERT INTO U VALUES (DATE '2011-01-03', DATE '2011-01-10', NULL, 'A', DATE '2011-01-05');
SELECT * FROM U WHERE EP OVERLAPS EP;
SELECT -- it;s "a"
END,
WITHOUT FROM U as A
where -- it;s "a"
END IS Null;
DELETE FROM U WHERE EP IMMEDIATELY SUCCEEDS U.EP AND (-1 BETWEEN 3 AND 1);
insert
INTO
U
(X,-- é
DS,
G)  VALUES--
('a', -- it;s "a"
DATE  '2011-01-06', -- it;s "a"
DATE	'2011-01-11'),  ('a', DATE-- é
'2011-01-03',-- é
DATE '2011-01-05'),  ('A', DATE  '2011-01-09',-- é
DATE-- é
'2011-01-10'),
('b',  DATE -- it;s "a"
'2011-01-07',--
DATE '2011-01-08'),-- é
(NULL ,
DATE '2011-01-07',	Date--
'2011-01-10'),-- é
('b',-- é
Date  '2011-01-08',  date
'2011-01-06');
INSERT INTO U VALUES (DATE '2011-01-10', DATE '2011-01-09', '𝄞', '
', DATE '2011-01-13');
)()()()()()()()()()()()()()()()()()()()()()()()()()()()()()()()()()()()()()()()()()()()()()()()()()()()()()()()()()()()()()()()(;
SELECT U.DS AS M, WITHOUT FROM U WHERE NOT 3 NOT IN (3) AND G IS NULL OR G IS NULL;
DELETEFROM  U;
START TRANSACTION;
SELECT DS FROM U;
SELECT * FROM U FOR SYSTEM_TIME BETWEEN TIMESTAMP '0001-01-01 00:00:00.000009' AND TIMESTAMP '2011-01-01 01:00:00' WHERE NOT DATE '2011-01-0a' > G OR WITHOUT NOT IN (WITHOUT, U.DS, DATE '2011-01-07');
SELECT x FROM t WHERE ((((((((((((((((((((((((((((((((((((((((((((((((((((((((((((((((x)))))))))))))))))))))))))))))))))))))))))))))))))))))))))))))))) = 1;
SELECT  *  FROM -- it;s "a"
u -- it;s "a"
FOR	System_time AS	OF
timestamp
'0001-01-01 00:00:00.000002'--
WHERE-- é
END <	(X)	AND u.DS
= WITHOUT;
UPDATE U SET P = NOSUCH WHERE (G = G) AND (EP > -1) AND (NOT PERIOD (G, DATE '2011-01-08') SUCCEEDS PERIOD (1, (3)) AND NOT TIMESTAMP '' = DATE '2011-01-06' OR (U.X) IN (U.END) AND PERIOD ('A', DATE '2011-01-01') IMMEDIATELY PRECEDES PERIOD (U.G, (G)) AND U.WITHOUT >= DS);
DELETE FROM U WHERE DS <= (WITHOUT);
COMMIT WORK;
SELECT * FROM U WHERE PERIOD (DS, WITHOUT) SUCCEEDS EP OR U.WITHOUT <= G;
SELECT U.END, U.DS, U.G FROM U WHERE U.EP EQUALS U.EP;
