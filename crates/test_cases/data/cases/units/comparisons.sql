-- What each sign says of two values of a kind, and of NULL: a pair of whose number neither a query nor the one with NOT answers is UNKNOWN.
-- Then how two values are ordered, as rows are printed: of two that tie the number in the next column decides. By hand from docs/LANGUAGE.md,
-- texts by their bytes in UTF-8.
CREATE TABLE numbers (n INTEGER, a BIGINT, b BIGINT);
INSERT INTO numbers VALUES
  (1, -9223372036854775808, 9223372036854775807), (2, 9223372036854775807, -9223372036854775808),
  (3, -9223372036854775808, -9223372036854775808), (4, -9223372036854775808, NULL), (5, NULL, -9223372036854775808),
  (6, -1, 0), (7, 0, -1), (8, -1, -1), (9, -1, NULL), (10, NULL, -1);
SELECT n FROM numbers WHERE a = b;
SELECT n FROM numbers WHERE NOT a = b;
SELECT n FROM numbers WHERE a <> b;
SELECT n FROM numbers WHERE NOT a <> b;
SELECT n FROM numbers WHERE a < b;
SELECT n FROM numbers WHERE NOT a < b;
SELECT n FROM numbers WHERE a <= b;
SELECT n FROM numbers WHERE NOT a <= b;
SELECT n FROM numbers WHERE a > b;
SELECT n FROM numbers WHERE NOT a > b;
SELECT n FROM numbers WHERE a >= b;
SELECT n FROM numbers WHERE NOT a >= b;
CREATE TABLE days (n INTEGER, a DATE, b DATE);
INSERT INTO days VALUES
  (1, DATE '0001-01-01', DATE '9999-12-31'), (2, DATE '9999-12-31', DATE '0001-01-01'),
  (3, DATE '0001-01-01', DATE '0001-01-01'), (4, DATE '0001-01-01', NULL), (5, NULL, DATE '0001-01-01');
SELECT n FROM days WHERE a = b;
SELECT n FROM days WHERE NOT a = b;
SELECT n FROM days WHERE a <> b;
SELECT n FROM days WHERE NOT a <> b;
SELECT n FROM days WHERE a < b;
SELECT n FROM days WHERE NOT a < b;
SELECT n FROM days WHERE a <= b;
SELECT n FROM days WHERE NOT a <= b;
SELECT n FROM days WHERE a > b;
SELECT n FROM days WHERE NOT a > b;
SELECT n FROM days WHERE a >= b;
SELECT n FROM days WHERE NOT a >= b;
CREATE TABLE moments (n INTEGER, a TIMESTAMP, b TIMESTAMP);
INSERT INTO moments VALUES
  (1, TIMESTAMP '1969-12-31 23:59:59.999999', TIMESTAMP '1970-01-01 00:00:00'),
  (2, TIMESTAMP '1970-01-01 00:00:00', TIMESTAMP '1969-12-31 23:59:59.999999'),
  (3, TIMESTAMP '1969-12-31 23:59:59.999999', TIMESTAMP '1969-12-31 23:59:59.999999'),
  (4, TIMESTAMP '1969-12-31 23:59:59.999999', NULL), (5, NULL, TIMESTAMP '1969-12-31 23:59:59.999999');
SELECT n FROM moments WHERE a = b;
SELECT n FROM moments WHERE NOT a = b;
SELECT n FROM moments WHERE a <> b;
SELECT n FROM moments WHERE NOT a <> b;
SELECT n FROM moments WHERE a < b;
SELECT n FROM moments WHERE NOT a < b;
SELECT n FROM moments WHERE a <= b;
SELECT n FROM moments WHERE NOT a <= b;
SELECT n FROM moments WHERE a > b;
SELECT n FROM moments WHERE NOT a > b;
SELECT n FROM moments WHERE a >= b;
SELECT n FROM moments WHERE NOT a >= b;
CREATE TABLE texts (n INTEGER, a VARCHAR(2), b VARCHAR(2));
INSERT INTO texts VALUES
  (1, '', ' '), (2, ' ', ''), (3, '', ''), (4, '', NULL), (5, NULL, ''), (6, 'A', 'A '), (7, 'A ', 'A'), (8, 'A', 'A'),
  (9, 'A', NULL), (10, NULL, 'A'), (11, 'Z', 'a'), (12, 'a', 'Z'), (13, 'Z', 'Z'), (14, 'Z', NULL), (15, NULL, 'Z'),
  (16, 'z', 'é'), (17, 'é', 'z'), (18, 'z', 'z'), (19, 'z', NULL), (20, NULL, 'z'), (21, '￿', '𐀀'), (22, '𐀀', '￿'),
  (23, '￿', '￿'), (24, '￿', NULL), (25, NULL, '￿'), (26, NULL, NULL);
SELECT n FROM texts WHERE a = b;
SELECT n FROM texts WHERE NOT a = b;
SELECT n FROM texts WHERE a <> b;
SELECT n FROM texts WHERE NOT a <> b;
SELECT n FROM texts WHERE a < b;
SELECT n FROM texts WHERE NOT a < b;
SELECT n FROM texts WHERE a <= b;
SELECT n FROM texts WHERE NOT a <= b;
SELECT n FROM texts WHERE a > b;
SELECT n FROM texts WHERE NOT a > b;
SELECT n FROM texts WHERE a >= b;
SELECT n FROM texts WHERE NOT a >= b;
CREATE TABLE numbers_in_order (pair INTEGER, v BIGINT, n INTEGER);
INSERT INTO numbers_in_order VALUES
  (1, -9223372036854775808, 2), (1, 9223372036854775807, 1), (2, 9223372036854775807, 2), (2, -9223372036854775808, 1),
  (3, -9223372036854775808, 2), (3, -9223372036854775808, 1), (4, -9223372036854775808, 2), (4, NULL, 1), (5, NULL, 2),
  (5, -9223372036854775808, 1), (6, -1, 2), (6, 0, 1), (7, 0, 2), (7, -1, 1), (8, -1, 2), (8, -1, 1), (9, -1, 2),
  (9, NULL, 1), (10, NULL, 2), (10, -1, 1);
SELECT v, n FROM numbers_in_order WHERE pair = 1;
SELECT v, n FROM numbers_in_order WHERE pair = 2;
SELECT v, n FROM numbers_in_order WHERE pair = 3;
SELECT v, n FROM numbers_in_order WHERE pair = 4;
SELECT v, n FROM numbers_in_order WHERE pair = 5;
SELECT v, n FROM numbers_in_order WHERE pair = 6;
SELECT v, n FROM numbers_in_order WHERE pair = 7;
SELECT v, n FROM numbers_in_order WHERE pair = 8;
SELECT v, n FROM numbers_in_order WHERE pair = 9;
SELECT v, n FROM numbers_in_order WHERE pair = 10;
CREATE TABLE days_in_order (pair INTEGER, v DATE, n INTEGER);
INSERT INTO days_in_order VALUES
  (1, DATE '0001-01-01', 2), (1, DATE '9999-12-31', 1), (2, DATE '9999-12-31', 2), (2, DATE '0001-01-01', 1),
  (3, DATE '0001-01-01', 2), (3, DATE '0001-01-01', 1), (4, DATE '0001-01-01', 2), (4, NULL, 1), (5, NULL, 2),
  (5, DATE '0001-01-01', 1);
SELECT v, n FROM days_in_order WHERE pair = 1;
SELECT v, n FROM days_in_order WHERE pair = 2;
SELECT v, n FROM days_in_order WHERE pair = 3;
SELECT v, n FROM days_in_order WHERE pair = 4;
SELECT v, n FROM days_in_order WHERE pair = 5;
CREATE TABLE moments_in_order (pair INTEGER, v TIMESTAMP, n INTEGER);
INSERT INTO moments_in_order VALUES
  (1, TIMESTAMP '1969-12-31 23:59:59.999999', 2), (1, TIMESTAMP '1970-01-01 00:00:00', 1),
  (2, TIMESTAMP '1970-01-01 00:00:00', 2), (2, TIMESTAMP '1969-12-31 23:59:59.999999', 1),
  (3, TIMESTAMP '1969-12-31 23:59:59.999999', 2), (3, TIMESTAMP '1969-12-31 23:59:59.999999', 1),
  (4, TIMESTAMP '1969-12-31 23:59:59.999999', 2), (4, NULL, 1), (5, NULL, 2), (5, TIMESTAMP '1969-12-31 23:59:59.999999', 1);
SELECT v, n FROM moments_in_order WHERE pair = 1;
SELECT v, n FROM moments_in_order WHERE pair = 2;
SELECT v, n FROM moments_in_order WHERE pair = 3;
SELECT v, n FROM moments_in_order WHERE pair = 4;
SELECT v, n FROM moments_in_order WHERE pair = 5;
CREATE TABLE texts_in_order (pair INTEGER, v VARCHAR(2), n INTEGER);
INSERT INTO texts_in_order VALUES
  (1, '', 2), (1, ' ', 1), (2, ' ', 2), (2, '', 1), (3, '', 2), (3, '', 1), (4, '', 2), (4, NULL, 1), (5, NULL, 2),
  (5, '', 1), (6, 'A', 2), (6, 'A ', 1), (7, 'A ', 2), (7, 'A', 1), (8, 'A', 2), (8, 'A', 1), (9, 'A', 2), (9, NULL, 1),
  (10, NULL, 2), (10, 'A', 1), (11, 'Z', 2), (11, 'a', 1), (12, 'a', 2), (12, 'Z', 1), (13, 'Z', 2), (13, 'Z', 1),
  (14, 'Z', 2), (14, NULL, 1), (15, NULL, 2), (15, 'Z', 1), (16, 'z', 2), (16, 'é', 1), (17, 'é', 2), (17, 'z', 1),
  (18, 'z', 2), (18, 'z', 1), (19, 'z', 2), (19, NULL, 1), (20, NULL, 2), (20, 'z', 1), (21, '￿', 2), (21, '𐀀', 1),
  (22, '𐀀', 2), (22, '￿', 1), (23, '￿', 2), (23, '￿', 1), (24, '￿', 2), (24, NULL, 1), (25, NULL, 2), (25, '￿', 1),
  (26, NULL, 2), (26, NULL, 1);
SELECT v, n FROM texts_in_order WHERE pair = 1;
SELECT v, n FROM texts_in_order WHERE pair = 2;
SELECT v, n FROM texts_in_order WHERE pair = 3;
SELECT v, n FROM texts_in_order WHERE pair = 4;
SELECT v, n FROM texts_in_order WHERE pair = 5;
SELECT v, n FROM texts_in_order WHERE pair = 6;
SELECT v, n FROM texts_in_order WHERE pair = 7;
SELECT v, n FROM texts_in_order WHERE pair = 8;
SELECT v, n FROM texts_in_order WHERE pair = 9;
SELECT v, n FROM texts_in_order WHERE pair = 10;
SELECT v, n FROM texts_in_order WHERE pair = 11;
SELECT v, n FROM texts_in_order WHERE pair = 12;
SELECT v, n FROM texts_in_order WHERE pair = 13;
SELECT v, n FROM texts_in_order WHERE pair = 14;
SELECT v, n FROM texts_in_order WHERE pair = 15;
SELECT v, n FROM texts_in_order WHERE pair = 16;
SELECT v, n FROM texts_in_order WHERE pair = 17;
SELECT v, n FROM texts_in_order WHERE pair = 18;
SELECT v, n FROM texts_in_order WHERE pair = 19;
SELECT v, n FROM texts_in_order WHERE pair = 20;
SELECT v, n FROM texts_in_order WHERE pair = 21;
SELECT v, n FROM texts_in_order WHERE pair = 22;
SELECT v, n FROM texts_in_order WHERE pair = 23;
SELECT v, n FROM texts_in_order WHERE pair = 24;
SELECT v, n FROM texts_in_order WHERE pair = 25;
SELECT v, n FROM texts_in_order WHERE pair = 26;
