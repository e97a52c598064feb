-- How is data kept? The script is the database: January's statements, and then February's.
-- The text was written by hand from docs/LANGUAGE.md.
CREATE TABLE price (item INTEGER, cents INTEGER,
  known_from TIMESTAMP GENERATED ALWAYS AS ROW START, known_to TIMESTAMP GENERATED ALWAYS AS ROW END,
  PERIOD FOR SYSTEM_TIME (known_from, known_to), PRIMARY KEY (item)) WITH SYSTEM VERSIONING;
AT TIMESTAMP '2024-01-10 09:00:00';
INSERT INTO price (item, cents) VALUES (1, 100), (2, 250);

AT TIMESTAMP '2024-02-10 09:00:00';
UPDATE price SET cents = 120 WHERE item = 1;
SELECT item, cents FROM price;
SELECT item, cents FROM price FOR SYSTEM_TIME AS OF TIMESTAMP '2024-01-31 00:00:00';
