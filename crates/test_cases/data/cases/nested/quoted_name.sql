-- cases: short whole
-- 100,000 parentheses and a quoted name that never closes: E12, and nothing is read. By hand from docs/LANGUAGE.md.
UPDATE t SET x = 1 WHERE {100000 (}"