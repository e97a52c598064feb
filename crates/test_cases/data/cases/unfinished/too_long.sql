-- cases: short in-turn
-- A text of more than 1,048,576 bytes that no `;` ends is refused as too long (E13). By hand from docs/LANGUAGE.md.
{1048576 x}x