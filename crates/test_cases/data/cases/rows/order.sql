-- cases: growths in-turn
-- The order of printed rows: NULL first, numbers by value, texts by bytes, days and moments by time. By hand from docs/LANGUAGE.md.
CREATE TABLE t (n BIGINT, v VARCHAR(65535), d DATE, m TIMESTAMP WITHOUT TIME ZONE);
INSERT INTO t VALUES (NULL, 'b', NULL, NULL), (NULL, 'ab', NULL, NULL), (NULL, '', NULL, NULL), (NULL, 'B', NULL, NULL),
  (NULL, 'é', NULL, NULL), (NULL, '𝄞', NULL, NULL), (NULL, '�', NULL, NULL),
  (NULL, NULL, NULL, NULL), (NULL, NULL, DATE '1970-01-01', NULL), (NULL, NULL, DATE '0001-01-01', NULL),
  (NULL, NULL, DATE '9999-12-31', NULL), (NULL, NULL, DATE '1969-12-31', NULL),
  (NULL, NULL, NULL, TIMESTAMP '1970-01-01 00:00:00'), (NULL, NULL, NULL, TIMESTAMP '1969-12-31 23:59:59.999999'),
  (10, NULL, NULL, NULL), (-9, NULL, NULL, NULL), (9, NULL, NULL, NULL), (-10, NULL, NULL, NULL), (-10, NULL, NULL, NULL);
SELECT * FROM t;
