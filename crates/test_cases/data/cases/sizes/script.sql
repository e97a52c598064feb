-- cases: short whole
-- A script of over 20 MiB, and replies of over 20 MiB. By hand from docs/LANGUAGE.md.
CREATE TABLE t (n INTEGER, x VARCHAR(65535));
{330 INSERT INTO t VALUES (#, '{65535 x}');
}SELECT * FROM t;
