-- What changed between two moments?
-- The text was written by hand from docs/LANGUAGE.md.
CREATE TABLE price (item INTEGER, cents INTEGER,
  known_from TIMESTAMP GENERATED ALWAYS AS ROW START, known_to TIMESTAMP GENERATED ALWAYS AS ROW END,
  PERIOD FOR SYSTEM_TIME (known_from, known_to), PRIMARY KEY (item)) WITH SYSTEM VERSIONING;
AT TIMESTAMP '2024-01-10 09:00:00';
INSERT INTO price (item, cents) VALUES (1, 100), (2, 250), (3, 400);
AT TIMESTAMP '2024-02-10 09:00:00';
UPDATE price SET cents = 120 WHERE item = 1;
AT TIMESTAMP '2024-03-10 09:00:00';
START TRANSACTION;
UPDATE price SET cents = 130 WHERE item = 1;
DELETE FROM price WHERE item = 2;
INSERT INTO price (item, cents) VALUES (4, 75);
COMMIT;

-- Changed, removed and added from the end of January to the end of March.
SELECT o.item, o.cents AS was, n.cents AS became
  FROM price FOR SYSTEM_TIME AS OF TIMESTAMP '2024-01-31 00:00:00' o
  JOIN price FOR SYSTEM_TIME AS OF TIMESTAMP '2024-03-31 00:00:00' n ON n.item = o.item
  WHERE n.cents <> o.cents;
SELECT o.item, o.cents AS removed
  FROM price FOR SYSTEM_TIME AS OF TIMESTAMP '2024-01-31 00:00:00' o
  LEFT JOIN price FOR SYSTEM_TIME AS OF TIMESTAMP '2024-03-31 00:00:00' n ON n.item = o.item
  WHERE n.item IS NULL;
SELECT n.item, n.cents AS added
  FROM price FOR SYSTEM_TIME AS OF TIMESTAMP '2024-03-31 00:00:00' n
  LEFT JOIN price FOR SYSTEM_TIME AS OF TIMESTAMP '2024-01-31 00:00:00' o ON o.item = n.item
  WHERE o.item IS NULL;

-- Each step on the way.
SELECT o.item, o.cents AS was, n.cents AS became, n.known_from AS changed
  FROM price FOR SYSTEM_TIME BETWEEN TIMESTAMP '2024-01-31 00:00:00' AND TIMESTAMP '2024-03-31 00:00:00' o
  JOIN price FOR SYSTEM_TIME BETWEEN TIMESTAMP '2024-01-31 00:00:00' AND TIMESTAMP '2024-03-31 00:00:00' n
    ON n.item = o.item AND o.SYSTEM_TIME IMMEDIATELY PRECEDES n.SYSTEM_TIME
  WHERE n.cents <> o.cents;
