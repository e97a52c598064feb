-- cases: short whole
-- 100,000 parentheses and the end of the script: E12, and nothing is read. By hand from docs/LANGUAGE.md.
CREATE TABLE u (x INTEGER, CHECK {100000 (}