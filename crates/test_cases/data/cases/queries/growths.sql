-- cases: growths
-- Each growth is refused in turn: a join of three references, groups by a text, DISTINCT, a falling order and headings that are quoted. By hand from docs/LANGUAGE.md.
CREATE TABLE t (x INTEGER);
INSERT INTO t VALUES (1), (2);
CREATE TABLE v (y INTEGER, "a text" VARCHAR(40));
INSERT INTO v VALUES (1, 'some text that is long'), (2, NULL), (1, 'b');
SELECT DISTINCT "a text", COUNT(*) AS "how many", MIN("a text"), MAX(a.x) FROM t a LEFT JOIN v ON a.x = y, t b WHERE b.x < 3 GROUP BY "a text" HAVING COUNT(*) > 0 AND SUM(b.x) = 3 ORDER BY "a text" DESC, 2;
SELECT * FROM t CROSS JOIN v WHERE x > y;
SELECT COUNT(*) FROM v a JOIN v b ON a."a text" = b."a text";
SELECT x FROM t, t b;
SELECT x FROM t ORDER BY y;
