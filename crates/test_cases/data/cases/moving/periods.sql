-- A range, or a period that a system keeps by itself, is two columns and a period of them.
-- The text was written by hand from docs/LANGUAGE.md.
CREATE TABLE room (room INTEGER, guest VARCHAR(20), arrival DATE, departure DATE, PERIOD FOR stay (arrival, departure),
  PRIMARY KEY (room, stay WITHOUT OVERLAPS));
CREATE TABLE bill (bill INTEGER, room INTEGER, first DATE, last DATE, PERIOD FOR days (first, last),
  FOREIGN KEY (room, PERIOD days) REFERENCES room (room, PERIOD stay));
INSERT INTO room VALUES (1, 'Ada', DATE '2024-05-01', DATE '2024-05-11'), (2, 'Ben', DATE '2024-05-03', DATE '2024-05-06');
INSERT INTO room VALUES (1, 'Cem', DATE '2024-05-10', DATE '2024-05-12');
INSERT INTO bill VALUES (7, 2, DATE '2024-05-04', DATE '2024-05-08');
INSERT INTO bill VALUES (7, 2, DATE '2024-05-04', DATE '2024-05-06');
UPDATE room FOR PORTION OF stay FROM DATE '2024-05-04' TO DATE '2024-05-06' SET guest = 'Eve' WHERE room = 1;
DELETE FROM room FOR PORTION OF stay FROM DATE '2024-05-10' TO DATE '2024-06-01' WHERE room = 1;
SELECT guest, arrival, departure FROM room WHERE room = 1;
SELECT guest FROM room WHERE stay CONTAINS DATE '2024-05-05';
SELECT guest FROM room WHERE stay OVERLAPS PERIOD (DATE '2024-05-06', DATE '2024-05-09');
SELECT guest FROM room WHERE stay EQUALS PERIOD (DATE '2024-05-03', DATE '2024-05-06');
SELECT guest FROM room WHERE PERIOD (DATE '2024-05-03', DATE '2024-05-07') CONTAINS stay;
