-- cases: short whole
-- The last parenthesis that is allowed and the first that is not, before a byte at which no token begins; and 100 that are never open at once. By
-- hand from docs/LANGUAGE.md.
SELECT {64 (}#;
SELECT {65 (}#;
SELECT {100 (1) + }#;
SELECT {64 (}f {2 (}#;
SELECT ){65 (}#;
SELECT {64 (}1{65 )}#;
SELECT {64 (} (;
SELECT {32 (}x{32 )} + {64 (}x{64 )} FROM t;
