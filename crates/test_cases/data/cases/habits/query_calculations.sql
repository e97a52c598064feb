-- cases: in-turn
-- Which clause of a query, and which calculation, a number out of range is reported with. All by hand.
CREATE TABLE pay (id INTEGER, rate INTEGER, hours INTEGER);
CREATE TABLE bonus (id INTEGER, rate INTEGER);
INSERT INTO pay VALUES (1, 9223372036854775807, 2);
INSERT INTO bonus VALUES (1, 9223372036854775807);
SELECT pay.rate * bonus.rate FROM pay JOIN bonus ON pay.id = bonus.id;
SELECT p.rate + b.rate - 1 FROM pay p JOIN bonus b ON p.id = b.id;
SELECT p.id, p.rate FROM pay p JOIN bonus b ON p.id = b.id AND p.rate + b.rate > 0;
SELECT pay.id FROM pay JOIN bonus b ON pay.rate * 2 > b.rate * 2;
SELECT pay.id FROM pay, bonus WHERE 7 < pay.hours * pay.rate;
SELECT pay.id FROM pay, bonus WHERE pay.hours * pay.rate > 7 AND bonus.rate + 1 < 0;
SELECT pay.id FROM pay JOIN bonus ON pay.hours + 1 > 0 WHERE bonus.rate + 1 < 0;
SELECT id FROM pay WHERE rate - -1 > 0;
SELECT id FROM pay WHERE NOT (id = 2 OR rate + 1 > 0);
SELECT MAX(id), COUNT(*) FROM pay WHERE rate + hours > 0;
SELECT id FROM pay GROUP BY id HAVING SUM(rate) + MAX(hours) > 0;
SELECT SUM(rate) FROM pay WHERE rate + hours > 0;
SELECT id, rate + hours FROM pay WHERE id * 2 = 2;
