-- Queries: a statement a line, of each production and of each choice in it. The marks were given by a reading of the
-- grammar that shares nothing with the parser.
SELECT * FROM t
SELECT DISTINCT a FROM t
SELECT ALL a b , c AS d FROM t u , v AS w
SELECT a FROM t WHERE a = 1 GROUP BY a , t . b HAVING COUNT ( * ) > 1 ORDER BY a , 2 DESC , b ASC
SELECT a FROM t JOIN u ON a = b INNER JOIN v ON a = c LEFT JOIN w ON a = d LEFT OUTER JOIN x ON a = e CROSS JOIN y
SELECT a FROM t FOR SYSTEM_TIME AS OF TIMESTAMP '1' AS x , u FOR SYSTEM_TIME FROM TIMESTAMP '1' TO TIMESTAMP '2' , v FOR SYSTEM_TIME BETWEEN TIMESTAMP '1' AND TIMESTAMP '2' y
SELECT a FROM t NATURAL JOIN u ON a = b
SELECT a FROM t HAVING a = 1 ORDER BY 1
