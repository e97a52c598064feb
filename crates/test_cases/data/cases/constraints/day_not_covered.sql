-- cases: growths
-- A parent's day taken from under a child, and the parent dropped: both are refused, whatever growth is refused.
-- By hand from docs/LANGUAGE.md.
CREATE TABLE dept (dno INTEGER, ds DATE, de DATE, PERIOD FOR dp (ds, de), PRIMARY KEY (dno, dp WITHOUT OVERLAPS));
CREATE TABLE job (jno INTEGER, dno INTEGER, js DATE, je DATE, PERIOD FOR jp (js, je),
  FOREIGN KEY (dno, PERIOD jp) REFERENCES dept (dno, PERIOD dp));
INSERT INTO dept VALUES (5, DATE '2011-01-01', DATE '2011-07-01'), (5, DATE '2011-07-01', DATE '2012-01-01');
INSERT INTO job VALUES (1, 5, DATE '2011-03-01', DATE '2011-10-01');
DELETE FROM dept FOR PORTION OF dp FROM DATE '2011-07-01' TO DATE '2011-07-02' WHERE dno = 5;
SELECT * FROM dept;
DROP TABLE dept;
DROP TABLE job;
DROP TABLE dept;
