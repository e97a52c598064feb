-- cases: growths
-- Each growth is refused in turn: a table without versions, in a transaction and outside one. By hand from docs/LANGUAGE.md.
AT TIMESTAMP '2011-01-01 00:00:00';
CREATE TABLE "NOTE" (t VARCHAR(0003) NOT NULL, """" TIMESTAMP WITHOUT TIME ZONE, k INT);
START TRANSACTION;
INSERT INTO note ("""", t) VALUES (TIMESTAMP '2012-02-29 23:59:59.999999999999', 'é€𝄞');
COMMIT WORK;
SELECT * FROM note;
SELECT * FROM note FOR SYSTEM_TIME AS OF TIMESTAMP '2011-01-01 00:00:00';
DELETE FROM note;
SELECT * FROM note;
