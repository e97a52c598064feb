-- Expressions: a statement a line, of each production and of each choice in it. The marks were given by a reading of the
-- grammar that shares nothing with the parser.
SELECT - 1 , + a , a * - b + 2 * ( c - 1 ) , 'x' , DATE '1' , TIMESTAMP '2' , t . a FROM t
SELECT COUNT ( * ) , COUNT ( a ) , SUM ( a + 1 ) , MIN ( a ) , MAX ( ( a ) ) FROM t
