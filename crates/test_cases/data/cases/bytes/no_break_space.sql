-- cases: in-turn
-- Nor are U+00A0, U+2028 and U+FEFF, which some take for such. By hand from docs/LANGUAGE.md.
CREATE TABLE t (x INTEGER, y VARCHAR(9));
INSERT INTO t VALUES (1, NULL);
SELECT x  ﻿ FROM t;
SELECT x FROM   ﻿t;
SELECT x AS "a  ﻿b" FROM t;
SELECT x AS "  ﻿" FROM t;
UPDATE t SET y = 'a  ﻿b';
SELECT y FROM t;
SELECT x FROM t WHERE y = '  ﻿';
SELECT x FROM t WHERE y = 'a  ﻿b';
SELECT 1  ﻿2 FROM t;
SELECT  ﻿x FROM t;
SELECT x FROM t  ﻿;
SELECT x <  ﻿= 1 FROM t;
SELECT x -- a  ﻿b
FROM t;
--   ﻿
SELECT x FROM t;
SELECT x FROM t WHERE y = DATE '2011-01-0  ﻿';
AT TIMESTAMP '2011-01-01 00:00:00  ﻿';
  ﻿;
