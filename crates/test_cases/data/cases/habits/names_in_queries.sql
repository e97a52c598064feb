-- cases: growths in-turn
-- The names in queries that E21 is told with. The .err was read, not written, by hand.
CREATE TABLE emp (ename VARCHAR(20), dept INTEGER, d1 DATE, d2 DATE, PERIOD FOR ep (d1, d2), PRIMARY KEY (ename));
CREATE TABLE dept (dno INTEGER, dname VARCHAR(20), PRIMARY KEY (dno));
SELECT nmae FROM emp;
SELECT e.nmae FROM emp e, dept d;
SELECT f.ename FROM emp e, dept d;
SELECT emp.ename FROM emp e;
SELECT nmae FROM emp e, dept d;
SELECT ename + (1 - (2 * nmae)) FROM emp;
SELECT a.ename FROM emp a, emp b WHERE ename = 'x';
SELECT ename FROM emp, emp;
SELECT ename FROM emp WHERE ep = 1;
SELECT ename FROM emp WHERE dept OVERLAPS ep;
SELECT ename FROM emp WHERE eq OVERLAPS ep;
SELECT ename FROM emp WHERE ep CONTAINS d3;
SELECT ename FROM emp WHERE NOT (dept = 1 OR dept IN (1, dpet));
SELECT ename FROM emp ORDER BY dept;
SELECT ename FROM emp e JOIN dept d ON e.dept = d.no;
SELECT ename FROM emp e JOIN dept d ON e.dept = x.dno, dept x;
SELECT dept FROM emp GROUP BY dpet;
SELECT ename FROM emp GROUP BY ename HAVING SUM(dpet) > 1;
SELECT ename FROM emp WHERE ename = "Ada";
SELECT ename FROM emp WHERE dept = TRUE;
