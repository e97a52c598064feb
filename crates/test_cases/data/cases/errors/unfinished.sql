-- A script that ends without its last semicolon.
-- The text was written by hand from docs/LANGUAGE.md.
CREATE TABLE staff (employee INTEGER, name VARCHAR(10));
INSERT INTO staff VALUES (1, 'Ada')
