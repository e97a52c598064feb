-- cases: in-turn
-- Few rows multiplied with a table whose key WHERE says to equal one of their columns: the last chain alone, behind several, with joins of its own, and where WHERE calculates. By hand from docs/LANGUAGE.md.
CREATE TABLE dept (dno INTEGER, dname VARCHAR(10), PRIMARY KEY (dno));
CREATE TABLE emp (eno INTEGER, dno INTEGER, PRIMARY KEY (eno), FOREIGN KEY (dno) REFERENCES dept (dno));
INSERT INTO dept VALUES (1, 'a'), (2, 'b'), (3, 'c');
INSERT INTO emp VALUES (1, 1), (2, 1), (3, 2), (4, NULL);
SELECT eno, dname FROM emp, dept WHERE emp.dno = dept.dno;
SELECT eno, dname FROM emp, dept WHERE dept.dno = emp.dno AND emp.eno = 2;
SELECT eno, dname FROM emp, dept WHERE emp.dno = dept.dno AND emp.eno = 4;
SELECT dname, eno FROM dept, emp WHERE dept.dno = emp.dno AND dept.dno < 3 AND eno > 1;
SELECT a.eno AS x, b.eno AS y, dname FROM emp a, emp b, dept WHERE a.eno = 1 AND b.dno = a.dno AND dept.dno = b.dno;
SELECT emp.eno, d.dname, e.eno AS z FROM emp, dept d JOIN emp e ON e.dno = d.dno WHERE emp.dno = d.dno AND emp.eno = 3;
SELECT eno, dname FROM emp, dept WHERE emp.dno = dept.dno AND emp.eno + 9223372036854775807 > 0;
SELECT eno, dname FROM emp, dept WHERE emp.eno = 9 AND emp.dno = dept.dno AND emp.eno + 9223372036854775807 > 0;
