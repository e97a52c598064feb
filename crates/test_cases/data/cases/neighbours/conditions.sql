-- Conditions: a statement a line, of each production and of each choice in it. The marks were given by a reading of the
-- grammar that shares nothing with the parser.
SELECT x FROM t WHERE x = 1 OR x = 2 AND x = 3
SELECT x FROM t WHERE NOT x <> 1 AND ( x < 2 OR x <= 3 ) AND NOT ( x > 4 AND x >= 5 )
SELECT x FROM t WHERE x IS NULL OR x IS NOT NULL
SELECT x FROM t WHERE x BETWEEN 1 AND 2 AND x NOT BETWEEN 3 AND 4
SELECT x FROM t WHERE x IN ( 1 ) OR x NOT IN ( 1 , 2 , 3 )
SELECT x FROM t WHERE p OVERLAPS q OR t . p EQUALS PERIOD ( a , b ) OR SYSTEM_TIME PRECEDES t . SYSTEM_TIME
SELECT x FROM t WHERE PERIOD ( a , b ) IMMEDIATELY PRECEDES p OR p SUCCEEDS q OR p IMMEDIATELY SUCCEEDS q
SELECT x FROM t WHERE p CONTAINS q OR p CONTAINS PERIOD ( a , b ) OR t . SYSTEM_TIME CONTAINS SYSTEM_TIME OR p CONTAINS ( a ) + 1
SELECT x FROM t WHERE ( x ) = 1 AND ( ( x + 1 ) * 2 - 3 < 4 OR ( ( x = 1 ) ) )
SELECT x FROM t WHERE ( ( x ) ) IS NULL AND ( NOT ( ( y ) ) IN ( 1 ) AND z = 1 )
