-- How is a row set back that others refer to? DELETE is refused, also in a transaction. UPDATE is not.
-- The text was checked by hand against docs/LANGUAGE.md.
CREATE TABLE policy (no INTEGER, cents INTEGER, since DATE, until DATE, PERIOD FOR runs (since, until),
  known_from TIMESTAMP GENERATED ALWAYS AS ROW START, known_to TIMESTAMP GENERATED ALWAYS AS ROW END,
  PERIOD FOR SYSTEM_TIME (known_from, known_to), PRIMARY KEY (no, runs WITHOUT OVERLAPS)) WITH SYSTEM VERSIONING;
CREATE TABLE cover (no INTEGER, risk VARCHAR(10), since DATE, until DATE, PERIOD FOR runs (since, until),
  FOREIGN KEY (no, PERIOD runs) REFERENCES policy (no, PERIOD runs));
AT TIMESTAMP '2024-01-10 09:00:00';
INSERT INTO policy VALUES (1, 50000, DATE '2024-01-01', DATE '2025-01-01');
INSERT INTO cover VALUES (1, 'fire', DATE '2024-01-01', DATE '2025-01-01');
AT TIMESTAMP '2024-04-12 09:00:00';
UPDATE policy FOR PORTION OF runs FROM DATE '2024-03-01' TO DATE '2025-01-01' SET cents = 5 WHERE no = 1;
AT TIMESTAMP '2024-05-02 09:00:00';
START TRANSACTION;
DELETE FROM policy WHERE no = 1;
-- So each version is set back by its value: here the wrong one.
UPDATE policy SET cents = 50000 WHERE no = 1 AND cents = 5;
COMMIT;
SELECT cents, since, until FROM policy;
-- The old number of rows comes back when one row is stretched over the other: the others go first, but not all of them.
START TRANSACTION;
UPDATE policy SET no = -1 WHERE no = 1 AND since = DATE '2024-03-01';
UPDATE policy SET until = DATE '2025-01-01' WHERE no = 1 AND since = DATE '2024-01-01';
ROLLBACK;
-- One reference less for a moment: take the children out, and put them back, in the same transaction.
CREATE TABLE kept (no INTEGER, risk VARCHAR(10), since DATE, until DATE);
INSERT INTO kept SELECT * FROM cover WHERE no = 1;
START TRANSACTION;
DELETE FROM cover WHERE no = 1;
DELETE FROM policy WHERE no = 1;
INSERT INTO policy SELECT no, cents, since, until FROM policy FOR SYSTEM_TIME AS OF TIMESTAMP '2024-04-12 08:59:59.999999' WHERE no = 1;
INSERT INTO cover SELECT * FROM kept;
COMMIT;
SELECT cents, since, until FROM policy;
