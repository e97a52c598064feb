-- cases: growths in-turn
-- Which row, period, constraint and values a refusal of rows of periods is reported with. The .err was read, not written, by hand.
CREATE TABLE dept (dno INTEGER, dname VARCHAR(10), a DATE, z DATE, PERIOD FOR runs (a, z), PRIMARY KEY (dno, runs WITHOUT OVERLAPS));
INSERT INTO dept VALUES (1, 'x', DATE '2025-01-01', DATE '2024-01-01');
INSERT INTO dept VALUES (1, 'x', DATE '2024-01-01', DATE '2025-01-01'), (1, 'y', DATE '2024-06-01', DATE '2026-01-01');
INSERT INTO dept VALUES (1, 'x', DATE '2024-01-01', DATE '2025-01-01'), (2, 'y', DATE '2024-06-01', DATE '2026-01-01');
INSERT INTO dept VALUES (3, 'x', DATE '2024-01-01', DATE '2025-01-01'), (2, 'y', DATE '2025-06-01', DATE '2026-02-01');
CREATE TABLE kid (n INTEGER, d INTEGER, s DATE, e DATE, PERIOD FOR p (s, e), FOREIGN KEY (d, PERIOD p) REFERENCES dept (dno, PERIOD runs));
INSERT INTO kid VALUES (1, 1, DATE '2024-02-01', DATE '2024-03-01'), (2, 1, DATE '2024-12-01', DATE '2025-02-01');
INSERT INTO kid VALUES (1, 1, DATE '2024-02-01', DATE '2024-03-01'), (2, 2, DATE '2024-12-01', DATE '2025-02-01');
DELETE FROM dept WHERE dno = 2;
DELETE FROM dept FOR PORTION OF runs FROM DATE '2024-02-10' TO DATE '2024-02-20' WHERE dno = 1;
UPDATE dept SET dno = 2 WHERE dno = 1;
