-- The mistakes of newcomers, each with what to write instead. The .out is by hand; the .err was read, not written, by hand.
CREATE TABLE client (no INTEGER, name VARCHAR(12) NOT NULL, PRIMARY KEY (no));
CREATE TABLE cover (no INTEGER, sum_insured INTEGER, starts DATE, ends DATE, PERIOD FOR runs (starts, ends), sf TIMESTAMP GENERATED ALWAYS AS ROW START, st TIMESTAMP GENERATED ALWAYS AS ROW END, PERIOD FOR SYSTEM_TIME (sf, st), PRIMARY KEY (no, runs WITHOUT OVERLAPS), FOREIGN KEY (no) REFERENCES client (no), CONSTRAINT positive CHECK (sum_insured > 0)) WITH SYSTEM VERSIONING;
CREATE TABLE claim (id INTEGER, no INTEGER, day DATE, paid INTEGER, at TIMESTAMP, PRIMARY KEY (id));
AT TIMESTAMP '2024-01-10 09:00:00';
INSERT INTO client VALUES (1, 'Ada'), (2, 'Ben');
INSERT INTO cover VALUES (1, 100000, DATE '2024-01-01', DATE '2025-01-01');
INSERT INTO claim VALUES (1, 1, DATE '2024-03-03', 500, TIMESTAMP '2024-03-04 10:00:00');
-- Columns that are not grouped.
SELECT name FROM client HAVING COUNT(*) > 1;
SELECT name, COUNT(*) FROM client;
SELECT no, SUM(paid) FROM claim GROUP BY id;
SELECT MAX(paid), day FROM claim;
-- Keywords that are misspelt.
SELCT name FROM client;
SELECT name FORM client;
INSERT INTO client VALUE (3, 'Cem');
SELECT * FROM cover FOR SYSTEM TIME AS OF TIMESTAMP '2024-05-05 00:00:00';
-- Literals of another type than the column.
SELECT name FROM client WHERE no = '1';
SELECT name FROM client WHERE no IN ('1','2');
INSERT INTO claim VALUES (2, 1, DATE '2024-03-03', 500, DATE '2024-03-04');
SELECT * FROM claim WHERE day = TIMESTAMP '2024-03-03 00:00:00';
SELECT * FROM claim WHERE at > DATE '2024-03-03';
SELECT * FROM cover WHERE runs CONTAINS TIMESTAMP '2024-05-05 00:00:00';
-- Statements that end too early.
SELECT name FROM client WHERE no = 1 AND;
SELECT name FROM client WHERE (no = 1;
SELECT name FROM client WHERE NOT no IS NULL AND name IS NOT;
SELECT name FROM client JOIN claim;
SELECT * FROM client WHERE no BETWEEN 5;
INSERT INTO client VALUES (3, 'Cem'),;
SELECT * FROM claim WHERE paid;
SELECT * FROM claim WHERE paid = 500 OR 600;
-- A comma, a parenthesis or a sign that is missing or too many.
SELECT name FROM client WHERE no = 1);
CREATE TABLE x (a INT(11));
SELECT COUNT() FROM client;
UPDATE client SET name = 'Cem' AND no = 3 WHERE no = 1;
UPDATE client SET (name) = ('Cem') WHERE no = 1;
INSERT INTO client VALUES 3, 'Cem';
INSERT INTO client VALUES (3 'Cem');
SELECT * FROM claim WHERE paid >= 500 <= 900;
SELECT * FROM claim WHERE paid => 500;
SELECT * FROM claim WHERE name IN 'Ada', 'Ben';
SELECT client.name claim.paid FROM client JOIN claim ON client.no = claim.no;
SELECT * FROM client, JOIN claim ON client.no = claim.no;
CREATE TABLE x (a INTEGER b INTEGER);
CREATE TABLE x (a INTEGER, PRIMARY KEY a);
-- Other names of tables and of output columns.
SELECT name FROM client c JOIN claim k ON client.no = k.no;
SELECT * FROM cover WHERE runs CONTAINS claim.day;
SELECT name AS n FROM client WHERE n = 'Ada';
SELECT no AS k, COUNT(*) FROM claim GROUP BY k;
SELECT name FROM client ORDER BY no;
SELECT * FROM client c WHERE client.no = 1;
-- Periods.
SELECT * FROM cover WHERE runs = PERIOD (DATE '2024-01-01', DATE '2025-01-01');
SELECT * FROM cover WHERE DATE '2024-05-05' IN runs;
SELECT * FROM cover WHERE runs OVERLAPS (DATE '2024-01-01', DATE '2025-01-01');
SELECT * FROM cover WHERE runs OVERLAPS DATE '2024-01-01';
UPDATE cover FOR PORTION OF runs BETWEEN DATE '2024-06-01' AND DATE '2024-07-01' SET sum_insured = 5;
INSERT INTO cover VALUES (2, 5, PERIOD (DATE '2024-06-01', DATE '2024-07-01'));
SELECT * FROM cover WHERE runs AS OF DATE '2024-05-05';
SELECT * FROM cover WHERE DATE '2024-05-05' BETWEEN runs;
SELECT * FROM cover WHERE starts CONTAINS DATE '2024-05-05';
UPDATE cover FOR PORTION OF runs (DATE '2024-06-01', DATE '2024-07-01') SET sum_insured = 5;
-- Numbers.
SELECT * FROM cover WHERE runs CONTAINS 2024-05-05;
INSERT INTO claim VALUES (2, 1, DATE '2024-03-03', 1,000, NULL);
INSERT INTO claim VALUES (2, 1, 2024-03-03, 500, NULL);
SELECT * FROM claim WHERE paid > 1,000;
-- Literals of another form.
SELECT * FROM cover FOR SYSTEM_TIME AS OF TIMESTAMP '2024-05-05';
INSERT INTO cover VALUES (2, 5, DATE '01.06.2024', DATE '2024-07-01');
INSERT INTO claim VALUES (2, 1, DATE '2024-03-03', 500, TIMESTAMP '2024-03-04T10:00:00Z');
AT TIMESTAMP '2024-05-05';
SELECT name FROM client WHERE name = ’Ada’;
INSERT INTO cover VALUES (2, 5, DATE('2024-06-01'), DATE('2024-07-01'));
INSERT INTO cover VALUES (2, 5, DATE '2024-06-01', DATE 'infinity');
SELECT * FROM claim WHERE day >= DATE '2024-03';
AT TIMESTAMP '2024-05-05T00:00:00';
AT TIMESTAMP '2024-05-05 24:00:00';
-- Clauses at a wrong place.
SELECT * FROM cover AS OF TIMESTAMP '2024-05-05 00:00:00';
UPDATE cover SET sum_insured = 5 FOR PORTION OF runs FROM DATE '2024-06-01' TO DATE '2024-07-01' WHERE no = 1;
UPDATE cover FOR PORTION OF SYSTEM_TIME FROM TIMESTAMP '2024-01-01 00:00:00' TO TIMESTAMP '2024-07-01 00:00:00' SET sum_insured = 5;
UPDATE client name = 'Cem' WHERE no = 1;
UPDATE SET name = 'Cem';
INSERT INTO client (no, name) (3, 'Cem');
SELECT * FROM claim WHERE day BETWEEN DATE '2024-01-01' TO DATE '2024-12-31';
SELECT * FROM claim ORDER day;
SELECT * FROM claim GROUP no;
SELECT * FROM cover WHERE SYSTEM_TIME AS OF TIMESTAMP '2024-05-05 00:00:00';
UPDATE cover FOR PORTION runs FROM DATE '2024-06-01' TO DATE '2024-07-01' SET sum_insured = 5;
DELETE FROM cover WHERE no = 1 FOR PORTION OF runs FROM DATE '2024-06-01' TO DATE '2024-07-01';
-- Rows.
INSERT INTO client (no) VALUES (3);
INSERT INTO cover VALUES (1, 5, DATE '2024-06-01', DATE '2024-07-01');
INSERT INTO cover VALUES (2, 5, DATE '2024-06-01', DATE '2024-06-01');
INSERT INTO cover VALUES (9, 5, DATE '2024-06-01', DATE '2024-07-01');
INSERT INTO cover VALUES (2, 5, DATE '2024-06-01', NULL);
INSERT INTO cover VALUES (2, 5, DATE '2024-06-01', DATE '2024-07-01', TIMESTAMP '2024-01-01 00:00:00', TIMESTAMP '2025-01-01 00:00:00');
AT TIMESTAMP '2023-05-05 00:00:00';
-- Texts without quotes.
INSERT INTO client VALUES (3, Cem);
UPDATE client SET name = Cem WHERE no = 1;
-- Keys and references.
CREATE TABLE x (a INTEGER, f DATE, t DATE, PERIOD FOR p (f, t), PRIMARY KEY (a, p));
CREATE TABLE x (a INTEGER, f DATE, t DATE, PERIOD FOR p (f, t), PRIMARY KEY (a WITHOUT OVERLAPS));
CREATE TABLE x (a INTEGER, f DATE, t DATE, PERIOD FOR p (f, t), FOREIGN KEY (a, PERIOD p) REFERENCES cover (no, runs));
CREATE TABLE x (a INTEGER, f DATE, t DATE, PERIOD FOR p (f, t), PRIMARY KEY (a, f WITHOUT OVERLAPS));
-- What the language does not have.
CREATE TABLE x (a INTEGER, CHECK (a > (SELECT MAX(no) FROM client)));
SELECT DISTINCT ON (no) * FROM claim;
SELECT * FROM claim WHERE day > DATE '2024-01-01' - 30;
VALUES (1);
PRAGMA table_info(client);
INSERT INTO claim VALUES (2, 1, DATE '2024-03-03', 500, NOW());
INSERT INTO claim VALUES (2, 1, CURRENT_DATE, 500, NULL);
CLOSE r;
-- A semicolon that is missing.
SELECT name FROM client INSERT INTO client VALUES (3, 'Cem');
-- More of names, numbers and rows.
SELECT no FROM cover c WHERE cover.runs CONTAINS DATE '2024-05-05';
SELECT no FROM cover c WHERE cover.SYSTEM_TIME CONTAINS TIMESTAMP '2024-05-05 00:00:00';
INSERT INTO claim VALUES (2, 1, DATE '2024-03-03', 12,345,678, NULL);
INSERT INTO cover VALUES (1, 5, DATE '2023-06-01', DATE '2024-07-01');
-- A quote that is not doubled, with a statement after it.
INSERT INTO client VALUES (3, 'O'Neil');
SELECT name FROM client;
