-- cases: in-turn
-- A `;` in a text, in a quoted name and in a comment ends no statement, also where a piece ends in front of it or behind it, and a `-` at
-- the end of a piece begins a comment with the next one, or is the text. By hand from docs/LANGUAGE.md.
CREATE TABLE "a;b" (x VARCHAR(9)); -- one; two
INSERT INTO "a;b" VALUES ('c;d'';'), (';');
;-- three;
;-;--;
- -;
SELECT x FROM "a;b"; -- four;
- 
