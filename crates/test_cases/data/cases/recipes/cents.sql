-- How is money kept? As whole cents: tools/tql-csv --cents writes these statements, and tools/tql-cents prints amounts.
-- The text was checked by hand against docs/LANGUAGE.md.
CREATE TABLE payment (id INTEGER NOT NULL, paid DATE NOT NULL, amount INTEGER NOT NULL, payee VARCHAR(20) NOT NULL);
INSERT INTO payment (id, paid, amount, payee) VALUES
(1, DATE '2023-12-31', 123450, 'Łukasz'),
(2, DATE '2024-01-02', -7, 'O''Neil'),
(3, DATE '2024-01-03', 200000, 'Smith; Jr.');
SELECT payee, amount FROM payment ORDER BY 2 DESC;
SELECT COUNT(*) AS n, SUM(amount) AS amount FROM payment;
-- 19 % of it, in hundredths of a cent: rounded once, outside, by the rule that the law names.
SELECT id, amount * 19 AS tax_hundredths FROM payment;
