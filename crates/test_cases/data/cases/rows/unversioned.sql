-- cases: in-turn
-- A table without versions keeps its current rows alone. By hand from docs/LANGUAGE.md.
CREATE TABLE note (t VARCHAR(0009) NOT NULL); AT TIMESTAMP '2011-01-01 00:00:00'; INSERT INTO note VALUES ('a'), ('b'), ('a');
START TRANSACTION; DELETE FROM note; INSERT INTO note VALUES ('c'); SELECT * FROM note; ROLLBACK WORK; SELECT * FROM note;
DELETE FROM "NOTE"; SELECT ALL * FROM note; DELETE FROM note;
