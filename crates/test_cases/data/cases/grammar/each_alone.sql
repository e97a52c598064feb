-- Each statement is checked alone. By hand from docs/LANGUAGE.md.
SELECT x FROM nosuch;
SELEC;
SELECT x FROM t WHERE a OR b;
