-- cases: short in-turn
-- Keys and references of 64 columns: rows that differ in the last column alone; and many constraints, which are no columns (E15).
-- By hand from docs/LANGUAGE.md.
CREATE TABLE p ({63 a# INT, }b VARCHAR(3), {70 UNIQUE (a#), }UNIQUE (b, {62 a#, }a63));
CREATE TABLE p ({63 a# INT, }b VARCHAR(3), UNIQUE (b, {62 a#, }a63), {63 CONSTRAINT c CHECK (a# < 100), }{9 UNIQUE (a#, b), }
  UNIQUE (b, {62 a#, }a63));
CREATE TABLE c (b VARCHAR(3), {62 a# INT, }a63 INT, FOREIGN KEY (b, {62 a#, }a63) REFERENCES p (b, {62 a#, }a63));
INSERT INTO p VALUES ({63 #, }'x');
INSERT INTO p VALUES ({63 #, }'x');
INSERT INTO p VALUES ({62 1#, }100, 'y');
INSERT INTO p VALUES ({9 2#, }{53 #, }NULL, 'y'), ({9 2#, }{53 #, }NULL, 'y');
INSERT INTO p VALUES ({9 2#, }{53 #, }NULL, 'y'), ({9 3#, }{53 #, }NULL, 'y');
INSERT INTO c VALUES ('x', {62 #, }63);
INSERT INTO c VALUES ('x', {62 #, }64);
INSERT INTO c VALUES ('y', {62 #, }NULL);
UPDATE p SET a63 = 64 WHERE b = 'x';
UPDATE c SET a63 = NULL;
UPDATE p SET a63 = 64 WHERE b = 'x';
SELECT a1, a62, a63, b FROM p;
