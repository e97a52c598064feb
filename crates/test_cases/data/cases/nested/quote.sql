-- cases: short whole
-- 100,000 parentheses and a quote that never closes: E12, and nothing is read. By hand from docs/LANGUAGE.md.
SELECT {100000 (}'