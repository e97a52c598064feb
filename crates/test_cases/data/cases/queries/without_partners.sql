-- cases: in-turn
-- Rows without partners: NULL in every column of the reference, generated ones and the ends of its periods too, tested again by later ONs, WHERE and groups. By hand from docs/LANGUAGE.md.
CREATE TABLE t (x INTEGER);
INSERT INTO t VALUES (1), (2);
CREATE TABLE log (x INTEGER, s TIMESTAMP GENERATED ALWAYS AS ROW START, e TIMESTAMP GENERATED ALWAYS AS ROW END,
  PERIOD FOR SYSTEM_TIME (s, e)) WITH SYSTEM VERSIONING;
AT TIMESTAMP '2011-01-01 00:00:00';
INSERT INTO log VALUES (1);
AT TIMESTAMP '2011-02-01 00:00:00';
INSERT INTO log VALUES (3);
SELECT t.x, l.* FROM t LEFT JOIN log l ON t.x = l.x;
SELECT t.x, l.x, s, e FROM t LEFT JOIN log FOR SYSTEM_TIME AS OF TIMESTAMP '2010-01-01 00:00:00' l ON t.x = l.x;
SELECT * FROM t LEFT OUTER JOIN log ON t.x = log.x AND t.x > 1 WHERE s IS NULL AND e IS NULL;
SELECT t.x FROM t LEFT JOIN log ON t.x = log.x WHERE NOT (SYSTEM_TIME CONTAINS TIMESTAMP '2011-01-01 00:00:00');
SELECT t.x, a.x, b.x FROM t LEFT JOIN log a ON t.x = a.x LEFT JOIN log b ON a.x = b.x OR a.s IS NULL AND b.x > 1;
SELECT t.x, a.x, b.x FROM t LEFT JOIN log a ON t.x = a.x JOIN log b ON a.x = b.x;
SELECT log.x, COUNT(*), COUNT(s), MIN(t.x) FROM t LEFT JOIN log ON t.x = log.x + 1 GROUP BY log.x;
SELECT t.x, log.x FROM log LEFT JOIN t ON t.x = log.x;
SELECT t.x, a.x FROM t LEFT JOIN log a ON 1 = 2, log b;
SELECT a.x FROM log a LEFT JOIN t ON a.x = t.x, log b LEFT JOIN t c ON b.x = c.x WHERE c.x IS NULL AND t.x IS NOT NULL;
