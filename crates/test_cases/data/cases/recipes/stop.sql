-- What does a refused statement leave of a transaction? Without --bail the run goes on.
-- The text was written by hand from docs/LANGUAGE.md.
CREATE TABLE account (number INTEGER, cents INTEGER, PRIMARY KEY (number), CHECK (cents >= 0));
INSERT INTO account VALUES (1, 5000), (2, 0);
START TRANSACTION;
UPDATE account SET cents = cents + 8000 WHERE number = 2;
UPDATE account SET cents = cents - 8000 WHERE number = 1;
COMMIT;
SELECT number, cents FROM account;
