-- A text that is not all tokens. By hand from docs/LANGUAGE.md.
$;
1a;
"";
