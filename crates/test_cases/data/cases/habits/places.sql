-- Where a text that is no statement is told to stop: lines and columns of the script, in characters from 1. What a terminal may take for an
-- order is shown as a question mark, and of a long name its beginning. By hand.
SELECT 1; SELECT x FRM t;   SELEC x;
/* c */
SELECT x; -- behind -- a comment
  SELECT "äö", ü FROM t;
SELECT x,
    -- a comment, and a blank line

	y,
	€
FROM t; SELECT 'a
b', "c
d" FRM t;
SELECT x FROM t WHERE x = 1 "a[2J
b";
SELECT x FROM t WHERE x = 1 bbbbbbbbbbbbbbbbbbbbbbbbbbbbbbbbbbbbbbbbb c;
-- the last
SELECT x FROM t WHERE x = 1 bbbbbbbbbbbbbbbbbbbbbbbbbbbbbbbbbbbbbbbb;
;;-