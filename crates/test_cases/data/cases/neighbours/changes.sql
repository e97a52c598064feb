-- Changes: a statement a line, of each production and of each choice in it. The marks were given by a reading of the
-- grammar that shares nothing with the parser.
INSERT INTO t VALUES ( 1 )
INSERT INTO t ( a , b ) VALUES ( NULL , - 1 ) , ( + 2 , 'x' )
INSERT INTO t SELECT * FROM u
INSERT INTO t ( a ) SELECT a FROM u WHERE a = 1
UPDATE t SET a = 1
UPDATE t FOR PORTION OF p FROM DATE '1' TO DATE '2' SET a = NULL , b = b + 1 WHERE a IS NULL
UPDATE t FOR PORTION OF SYSTEM_TIME FROM TIMESTAMP '1' TO TIMESTAMP '2' SET a = 1
DELETE FROM t
DELETE FROM t FOR PORTION OF p FROM DATE '1' TO TIMESTAMP '2' WHERE a < 1
START TRANSACTION
COMMIT
COMMIT WORK
ROLLBACK
ROLLBACK WORK
AT TIMESTAMP '1'
