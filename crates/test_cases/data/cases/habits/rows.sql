-- cases: growths in-turn
-- Which row, column, constraint and values a refusal of rows is reported with. The .err was read, not written, by hand.
CREATE TABLE emp (eno INTEGER, "Name" VARCHAR(20), dno INTEGER, PRIMARY KEY (eno), UNIQUE (dno, "Name"));
INSERT INTO emp VALUES (1, 'a', 1), (2, 'b', 1), (1, 'c', 2);
INSERT INTO emp VALUES (1, 'a', 1);
INSERT INTO emp VALUES (5, 'x', 1), (1, 'z', 3);
INSERT INTO emp VALUES (5, 'x', 1), (6, 'x', 1);
INSERT INTO emp VALUES (7, 'a text that is longer than twenty', 1);
INSERT INTO emp VALUES (7, 'a', 1), (NULL, 'b', 1);
INSERT INTO emp VALUES (7, 'a', 9223372036854775807 + 1);
INSERT INTO emp (dno, eno) VALUES (1, 7), (2, 4000000000 * 4000000000);
CREATE TABLE c (x INTEGER, y INTEGER, CHECK (x < 10), CHECK (x > 0), CHECK (x < y), CHECK (x + y > 0));
INSERT INTO c VALUES (5, 6), (-1, 2);
INSERT INTO c VALUES (5, 4);
INSERT INTO c VALUES (5, 9223372036854775807);
CREATE TABLE boss (eno INTEGER, b INTEGER, FOREIGN KEY (b) REFERENCES emp (eno));
INSERT INTO boss VALUES (1, NULL), (2, 2), (3, 9);
INSERT INTO boss VALUES (1, NULL), (2, 1), (3, 1);
DELETE FROM emp;
UPDATE emp SET eno = 12 WHERE eno = 1;
UPDATE boss SET b = 7 WHERE eno = 2;
UPDATE emp SET eno = NULL;
UPDATE emp SET dno = 9223372036854775807 + dno;
INSERT INTO emp SELECT eno + 1000, 'x', dno FROM emp;
INSERT INTO emp SELECT eno, 'x', dno FROM emp;
INSERT INTO emp SELECT eno + 9223372036854775807, 'x', dno FROM emp;
INSERT INTO emp SELECT 5, 'q', x FROM c;
INSERT INTO emp VALUES (1, 'a', 1);
INSERT INTO emp SELECT eno + 1, 'q', 5 FROM boss;
