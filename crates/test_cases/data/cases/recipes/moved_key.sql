-- How does a key change that other rows refer to? Parcel 17 becomes parcel 1017.
-- The text was checked by hand against docs/LANGUAGE.md.
CREATE TABLE parcel (no INTEGER, area INTEGER, since DATE, until DATE, PERIOD FOR runs (since, until),
  known_from TIMESTAMP GENERATED ALWAYS AS ROW START, known_to TIMESTAMP GENERATED ALWAYS AS ROW END,
  PERIOD FOR SYSTEM_TIME (known_from, known_to), PRIMARY KEY (no, runs WITHOUT OVERLAPS)) WITH SYSTEM VERSIONING;
CREATE TABLE owner (parcel INTEGER, name VARCHAR(20), share INTEGER, since DATE, until DATE, PERIOD FOR runs (since, until),
  known_from TIMESTAMP GENERATED ALWAYS AS ROW START, known_to TIMESTAMP GENERATED ALWAYS AS ROW END,
  PERIOD FOR SYSTEM_TIME (known_from, known_to), PRIMARY KEY (parcel, name, runs WITHOUT OVERLAPS),
  FOREIGN KEY (parcel, PERIOD runs) REFERENCES parcel (no, PERIOD runs), CHECK (share > 0 AND share <= 10000)) WITH SYSTEM VERSIONING;
AT TIMESTAMP '2020-01-10 09:00:00';
INSERT INTO parcel VALUES (17, 800, DATE '1990-01-01', DATE '9999-12-31');
INSERT INTO owner VALUES (17, 'Ada', 5000, DATE '1990-01-01', DATE '9999-12-31'), (17, 'Ben', 5000, DATE '1990-01-01', DATE '2015-06-01'),
  (17, 'Cem', 5000, DATE '2015-06-01', DATE '9999-12-31');
AT TIMESTAMP '2024-03-01 09:00:00';
-- Neither side can go first.
UPDATE parcel SET no = 1017 WHERE no = 17;
UPDATE owner SET parcel = 1017 WHERE parcel = 17;
-- The new parent, then the children, then the old parent; one transaction, so one moment.
CREATE TABLE renumbered (was INTEGER, became INTEGER, PRIMARY KEY (was));
START TRANSACTION;
INSERT INTO renumbered VALUES (17, 1017);
INSERT INTO parcel SELECT 1017, area, since, until FROM parcel WHERE no = 17;
UPDATE owner SET parcel = 1017 WHERE parcel = 17;
DELETE FROM parcel WHERE no = 17;
COMMIT;
SELECT parcel, name, share, since, until FROM owner;
-- The past keeps the old number. A question over both goes through the table of numbers.
SELECT n.became AS parcel, o.name, o.share FROM renumbered n
  JOIN owner FOR SYSTEM_TIME AS OF TIMESTAMP '2023-12-31 00:00:00' o ON o.parcel = n.was WHERE o.runs CONTAINS DATE '2010-01-01';
-- From a day on alone (a new number from 2024-03-01): the portion does it, the parent first. In one transaction with the owners.
START TRANSACTION;
INSERT INTO parcel SELECT 2017, area, DATE '2024-03-01', until FROM parcel WHERE no = 1017;
UPDATE owner FOR PORTION OF runs FROM DATE '2024-03-01' TO DATE '9999-12-31' SET parcel = 2017 WHERE parcel = 1017;
DELETE FROM parcel FOR PORTION OF runs FROM DATE '2024-03-01' TO DATE '9999-12-31' WHERE no = 1017;
COMMIT;
SELECT parcel, name, share, since, until FROM owner;
-- The shares of a parcel make 10,000 on every day: tested on each day on which a share begins. This list should be empty.
SELECT a.parcel, a.since, SUM(b.share) AS shares
  FROM owner a JOIN owner b ON b.parcel = a.parcel AND b.runs CONTAINS a.since
  GROUP BY a.parcel, a.since, a.name HAVING SUM(b.share) <> 10000;
-- And on each day on which one ends, while the parcel goes on: either nothing to see, or the parcel's end.
SELECT a.parcel, a.until, a.name FROM owner a JOIN parcel p ON p.no = a.parcel AND p.runs CONTAINS a.until
  LEFT JOIN owner b ON b.parcel = a.parcel AND b.since = a.until WHERE b.parcel IS NULL;
