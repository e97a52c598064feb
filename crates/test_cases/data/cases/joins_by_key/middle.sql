-- cases: in-turn
-- Tables behind commas, where WHERE says a key of one in the middle to equal a column before it: few rows, no row, NULL before it and in it, several rows of a reference, a table with itself, two in the middle, half a key, a middle with joins of its own, and where WHERE calculates. By hand from docs/LANGUAGE.md.
CREATE TABLE site (sno INTEGER, city VARCHAR(10), PRIMARY KEY (sno));
CREATE TABLE dept (dno INTEGER, sno INTEGER, PRIMARY KEY (dno), FOREIGN KEY (sno) REFERENCES site (sno));
CREATE TABLE emp (eno INTEGER, dno INTEGER, boss INTEGER, PRIMARY KEY (eno), FOREIGN KEY (dno) REFERENCES dept (dno));
CREATE TABLE twos (p INTEGER, q INTEGER, PRIMARY KEY (p, q));
INSERT INTO site VALUES (10, 'x'), (20, 'y');
INSERT INTO dept VALUES (1, 10), (2, 20), (3, 10), (4, NULL);
INSERT INTO emp VALUES (1, 1, NULL), (2, 1, 1), (3, 2, 1), (4, NULL, 2), (5, 4, 3);
INSERT INTO twos VALUES (1, 10), (1, 20), (2, 10);
SELECT eno, dept.dno, city FROM emp, dept, site WHERE emp.eno = 1 AND dept.dno = emp.dno AND site.sno = dept.sno;
SELECT eno, city FROM emp, dept, site WHERE dept.dno = emp.dno AND site.sno = dept.sno;
SELECT eno, city FROM emp, dept, site WHERE emp.eno = 4 AND dept.dno = emp.dno AND site.sno = dept.sno;
SELECT eno, city FROM emp, dept, site WHERE emp.eno = 5 AND dept.dno = emp.dno AND site.sno = dept.sno;
SELECT eno, dept.sno, city FROM emp, dept, site WHERE emp.eno = 5 AND dept.dno = emp.dno AND site.sno = 20;
SELECT eno, city FROM emp, dept, site WHERE emp.eno = 9 AND dept.dno = emp.dno AND site.sno = dept.sno;
SELECT eno, dept.dno, city FROM emp, dept, site WHERE emp.dno = dept.dno AND dept.sno > 10 AND site.sno = dept.sno;
SELECT d.dno, eno, city FROM dept d, emp, site WHERE d.dno = 1 AND emp.dno = d.dno AND site.sno = d.sno;
SELECT a.eno AS x, b.eno AS y, c.eno AS z FROM emp a, emp b, emp c WHERE a.eno = 4 AND b.eno = a.boss AND c.eno = b.boss;
SELECT a.eno AS x, b.eno AS y, c.eno AS z FROM emp a, emp b, emp c WHERE b.eno = a.boss AND c.eno = b.boss;
SELECT a.eno AS x, b.eno AS y, d.dno, city FROM emp a, emp b, dept d, site WHERE a.eno = 4 AND b.eno = a.boss AND d.dno = b.dno AND site.sno = d.sno;
SELECT e.eno AS x, b.eno AS y, d.dno FROM emp e, emp b, dept d WHERE e.eno = 3 AND b.boss = e.boss AND d.dno = b.dno;
SELECT eno, q, city FROM emp, twos, site WHERE eno = 1 AND p = eno AND site.sno = q;
SELECT e.eno AS x, d.dno, b.eno AS y, city FROM emp e, dept d JOIN emp b ON b.dno = d.dno, site WHERE e.eno = 3 AND d.dno = e.dno AND site.sno = d.sno;
SELECT eno, city FROM emp, dept, site WHERE emp.eno = 1 AND dept.dno = emp.dno AND site.sno = dept.sno AND eno + 9223372036854775807 > 0;
