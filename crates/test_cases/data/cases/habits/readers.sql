-- cases: growths
-- Where a statement of readers, of the horizon or of a transaction is told to stop. By hand.
OPEN r;
OPEN READER;
OPEN READER count;
OPEN READER r s;
OPEN READER r (x);
READ;
READ SELECT x FROM t;
READ r;
READ r s SELECT x FROM t;
READ r UPDATE t SET x = 1;
READ r SELECT 1;
READ r SELECT x FRM t;
READ r SELECT f(x) FROM t;
READ r SELECT x FROM t LIMIT 1;
CLOSE r;
CLOSE READER 5;
CLOSE READER r, s;
PRUNE HISTORY AT TIMESTAMP '2011-01-01 00:00:00';
START TRANSACTION READ ONLY;
