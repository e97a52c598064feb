-- cases: in-turn
-- NULL equals nothing, not even NULL, and each of some equal rows has its partners. From sqlite3.
CREATE TABLE z (y INTEGER);
INSERT INTO z VALUES (NULL), (1), (1);
SELECT COUNT(*) FROM z a JOIN z b ON a.y = b.y;
SELECT COUNT(*) FROM z a, z b WHERE a.y = b.y;
SELECT a.y, b.y FROM z a LEFT JOIN z b ON a.y = b.y;
SELECT COUNT(*) FROM z a JOIN z b ON a.y = b.y JOIN z c ON c.y = a.y;
SELECT COUNT(*) FROM z a, z b, z c WHERE a.y = b.y AND b.y = c.y;
CREATE TABLE n (y INTEGER);
SELECT COUNT(*) FROM z JOIN n ON z.y = n.y;
SELECT COUNT(*) FROM n JOIN z ON z.y = n.y;
SELECT z.y, n.y FROM z LEFT JOIN n ON z.y = n.y;
INSERT INTO n VALUES (NULL), (NULL);
SELECT COUNT(*) FROM z JOIN n ON z.y = n.y;
SELECT z.y, n.y FROM n LEFT JOIN z ON z.y = n.y;
