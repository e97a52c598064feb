-- cases: in-turn
-- An auditor asks: who was paid what on 31 March, as the books stood on that day and as they stand now?
CREATE TABLE pay (
  employee INTEGER NOT NULL,
  name VARCHAR(20) NOT NULL,
  cents INTEGER NOT NULL,
  paid_from DATE,
  paid_to DATE,        -- the first day on which this no longer holds
  known_from TIMESTAMP GENERATED ALWAYS AS ROW START,
  known_to TIMESTAMP GENERATED ALWAYS AS ROW END,
  PERIOD FOR paid (paid_from, paid_to),
  PERIOD FOR SYSTEM_TIME (known_from, known_to)
) WITH SYSTEM VERSIONING;

AT TIMESTAMP '2011-01-03 09:00:00';
INSERT INTO pay VALUES
  (1, 'Adler', 250000, DATE '2011-01-01', DATE '2012-01-01'),
  (2, 'Brandt', 310000, DATE '2011-01-01', DATE '2012-01-01'),
  (3, 'Conrad', 280000, DATE '2011-01-01', DATE '2012-01-01');

-- In April the office hears that Adler's rise held from March on, that Conrad had left with February, and that Dietz had come in his place.
AT TIMESTAMP '2011-04-12 09:00:00';
START TRANSACTION;
UPDATE pay SET paid_to = DATE '2011-03-01' WHERE employee IN (1, 3);
INSERT INTO pay
  SELECT employee, name, cents + 15000, paid_to, DATE '2012-01-01' FROM pay WHERE employee = 1;
INSERT INTO pay VALUES (4, 'Dietz', 265000, DATE '2011-03-01', DATE '2012-01-01');
COMMIT;

-- What the books said of 31 March on that day, and what they say of it now, in one line for each whom they knew then.
SELECT then_known.name, then_known.cents AS then_cents, now_known.cents AS now_cents
FROM pay FOR SYSTEM_TIME AS OF TIMESTAMP '2011-03-31 18:00:00' AS then_known
  LEFT JOIN pay AS now_known
    ON now_known.employee = then_known.employee AND now_known.paid CONTAINS DATE '2011-03-31'
WHERE then_known.paid CONTAINS DATE '2011-03-31';

-- Whom the books know now, and did not know then.
SELECT now_known.name, now_known.cents
FROM pay now_known
  LEFT JOIN pay FOR SYSTEM_TIME AS OF TIMESTAMP '2011-03-31 18:00:00' then_known
    ON now_known.employee = then_known.employee AND then_known.paid CONTAINS DATE '2011-03-31'
WHERE now_known.paid CONTAINS DATE '2011-03-31' AND then_known.employee IS NULL;

-- How much was that in all, then and now?
SELECT COUNT(*) AS people, SUM(cents) AS cents
FROM pay FOR SYSTEM_TIME AS OF TIMESTAMP '2011-03-31 18:00:00' WHERE paid CONTAINS DATE '2011-03-31';
SELECT COUNT(*) AS people, SUM(cents) AS cents FROM pay WHERE paid CONTAINS DATE '2011-03-31';

-- Which lines of the books were closed by the correction, and with what were they followed?
SELECT o.name, o.paid_to AS was_to, n.paid_to AS is_to, n.known_from
FROM pay FOR SYSTEM_TIME AS OF TIMESTAMP '2011-03-31 18:00:00' o
  JOIN pay n ON o.employee = n.employee AND o.paid_from = n.paid_from AND o.SYSTEM_TIME IMMEDIATELY PRECEDES n.SYSTEM_TIME
ORDER BY name DESC;
