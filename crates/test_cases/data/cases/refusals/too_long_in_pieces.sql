-- cases: short in-turn
-- A text of more than 1,048,576 bytes in the middle of a script and another at its end are each refused once (E13), wherever the script
-- is cut: a `;` in their quotes or comments ends nothing, and what stands between them runs. By hand from docs/LANGUAGE.md.
AT TIMESTAMP '2011-01-01 00:00:00';
SELECT 'a;{1048576 x};b' -- c;
FROM t;
AT TIMESTAMP '2011-01-02 00:00:00';
'{1048576 x};
