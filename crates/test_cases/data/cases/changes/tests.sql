-- cases: growths
-- Each new row is tested, of an UPDATE too: a text too long anywhere comes before NULL anywhere; a row that is not touched is not tested. By hand from docs/LANGUAGE.md.
CREATE TABLE v (x INTEGER NOT NULL, c VARCHAR(2));
INSERT INTO v VALUES (NULL, 'a'), (9223372036854775807 + 1, 'b');
INSERT INTO v VALUES (1, 'a'), (2, 'abc'), (NULL, 'a');
INSERT INTO v VALUES (1, 'a'), (2, NULL);
UPDATE v SET x = NULL WHERE c = 'b';
UPDATE v SET x = NULL, c = 'abc' WHERE x = 2;
UPDATE v SET x = NULL;
UPDATE v SET c = 'zz', x = - x;
SELECT * FROM v;
