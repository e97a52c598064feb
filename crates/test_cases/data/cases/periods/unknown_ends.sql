-- cases: growths in-turn
-- With a NULL end one comparison that is false decides, and NOT of unknown is unknown. By hand from docs/LANGUAGE.md.
CREATE TABLE n (a DATE, b DATE);
INSERT INTO n VALUES (DATE '2011-01-01', NULL);
SELECT a FROM n WHERE PERIOD (a, b) OVERLAPS PERIOD (DATE '2010-01-01', DATE '2011-01-01');
SELECT a FROM n WHERE NOT (PERIOD (a, b) OVERLAPS PERIOD (DATE '2010-01-01', DATE '2011-01-01'));
SELECT a FROM n WHERE PERIOD (a, b) CONTAINS a;
