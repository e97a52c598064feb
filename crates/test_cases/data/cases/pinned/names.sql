-- OPEN, READ, READER and CLOSE are names wherever a name stands; a reader's name is folded as any. By hand.
CREATE TABLE read (open INTEGER, reader INTEGER, close TIMESTAMP GENERATED ALWAYS AS ROW START, e TIMESTAMP GENERATED ALWAYS AS ROW END,
  PERIOD FOR SYSTEM_TIME (close, e)) WITH SYSTEM VERSIONING;
INSERT INTO read VALUES (1, 2);
OPEN READER reader;
OPEN READER "reader";
READ READER SELECT open, reader FROM read;
read "reader" select "OPEN" AS read from read reader;
READ read SELECT open FROM read;
CLOSE READER "READER";
CLOSE READER READER;
CLOSE READER "reader";
OPEN READER OPEN; READ open SELECT COUNT(*) FROM read read; CLOSE READER open;
