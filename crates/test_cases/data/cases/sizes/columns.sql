-- cases: short whole
-- A row of 300 columns, of five tables of 60, one of which has no partner. By hand from docs/LANGUAGE.md.
CREATE TABLE a ({59 a# INTEGER, }a60 INTEGER);
CREATE TABLE b ({59 b# INTEGER, }b60 INTEGER);
CREATE TABLE c ({59 c# INTEGER, }c60 INTEGER);
CREATE TABLE d ({59 d# INTEGER, }d60 INTEGER);
CREATE TABLE e ({59 e# INTEGER, }e60 INTEGER);
INSERT INTO a VALUES ({59 #, }60);
INSERT INTO b VALUES ({59 -#, }-60);
INSERT INTO c VALUES ({59 10#, }1060);
INSERT INTO d VALUES ({59 20#, }2060);
INSERT INTO e VALUES ({59 30#, }3060);
SELECT * FROM a JOIN b ON a1 = - b1 LEFT JOIN c ON c1 = a1 CROSS JOIN d, e;
SELECT e60 - a1, c60 FROM a, b, c, d, e;
