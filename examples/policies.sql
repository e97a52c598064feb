-- cases: in-turn
-- An insurer asks: did the policy stand in the books at the moment when its claim came in?
CREATE TABLE policies (
  policy INTEGER,
  customer INTEGER,
  sum_insured INTEGER,
  booked TIMESTAMP GENERATED ALWAYS AS ROW START,
  replaced TIMESTAMP GENERATED ALWAYS AS ROW END,
  PERIOD FOR SYSTEM_TIME (booked, replaced)
) WITH SYSTEM VERSIONING;
CREATE TABLE claims (
  claim INTEGER,
  policy INTEGER,
  amount INTEGER,
  booked TIMESTAMP GENERATED ALWAYS AS ROW START,
  replaced TIMESTAMP GENERATED ALWAYS AS ROW END,
  PERIOD FOR SYSTEM_TIME (booked, replaced)
) WITH SYSTEM VERSIONING;

AT TIMESTAMP '2012-02-28 09:30:00';
INSERT INTO policies VALUES (1001, 7, 20000), (1002, 8, 5000);

-- On the leap day, within one second: a claim, and a policy that was sold later.
AT TIMESTAMP '2012-02-29 23:59:59.5';
INSERT INTO claims VALUES (1, 1002, 4999);
AT TIMESTAMP '2012-02-29 23:59:59.75';
INSERT INTO policies VALUES (1003, 8, 100000);

-- The books as they stood when the claim came in, and a quarter of a second later.
SELECT * FROM claims FOR SYSTEM_TIME AS OF TIMESTAMP '2012-02-29 23:59:59.499999';
SELECT * FROM claims FOR SYSTEM_TIME AS OF TIMESTAMP '2012-02-29 23:59:59.5';
SELECT * FROM policies FOR SYSTEM_TIME AS OF TIMESTAMP '2012-02-29 23:59:59.5';
SELECT * FROM policies FOR SYSTEM_TIME AS OF TIMESTAMP '2012-02-29 23:59:59.75';

-- No such day, no such table, and no such statement.
SELECT * FROM policies FOR SYSTEM_TIME AS OF TIMESTAMP '2011-02-29 00:00:00';
SELECT * FROM premiums FOR SYSTEM_TIME AS OF TIMESTAMP '2012-02-29 00:00:00';
CANCEL POLICY 1003;
