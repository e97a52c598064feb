-- cases: growths
-- A child's period is covered by several rows of its parent, or is not, after changes of both; whatever growth is refused.
-- By hand from docs/LANGUAGE.md.
CREATE TABLE dept (dno INTEGER, ds DATE, de DATE, PERIOD FOR dp (ds, de), UNIQUE (dno, dp WITHOUT OVERLAPS));
CREATE TABLE job (dno INTEGER, js DATE, je DATE, PERIOD FOR jp (js, je),
  FOREIGN KEY (dno, PERIOD jp) REFERENCES dept (dno, PERIOD dp));
INSERT INTO dept VALUES (1, DATE '2011-01-01', DATE '2011-03-01'), (1, DATE '2011-03-01', DATE '2011-06-01'), (2, DATE '2011-03-01', DATE '2012-01-01');
INSERT INTO job VALUES (1, DATE '2011-01-01', DATE '2011-06-01'), (NULL, DATE '2000-01-01', DATE '2020-01-01');
INSERT INTO job VALUES (1, DATE '2011-05-31', DATE '2011-06-02');
UPDATE dept SET de = DATE '2011-02-28' WHERE de = DATE '2011-03-01';
UPDATE dept SET ds = DATE '2011-02-28' WHERE dno = 1 AND ds = DATE '2011-03-01';
UPDATE dept FOR PORTION OF dp FROM DATE '2011-02-01' TO DATE '2011-04-01' SET dno = 2 WHERE dno = 1;
DELETE FROM job FOR PORTION OF jp FROM DATE '2011-03-01' TO DATE '2011-04-01';
DELETE FROM dept FOR PORTION OF dp FROM DATE '2011-03-01' TO DATE '2011-04-01';
SELECT * FROM dept;
