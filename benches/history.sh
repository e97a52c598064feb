#!/bin/sh
# How long it takes to find: one-row INSERTs at three sizes, each a transaction; 10,000 of them in one transaction; 1,000 questions AS OF over
# a table of 1,000 current rows and 100,000 closed versions; DELETE of all and INSERT of all again, 1,000 times with 100 rows; ROLLBACK of
# one row in a table of 100,000. In tql, and the equivalent in sqlite3 over a database in memory, where history is kept by hand with an
# index of its starts. The replies go to /dev/null; the time of making a table is told first, and is part of what stands below it.
# Usage: benches/history.sh    (first: make build)
set -eu
top=$(cd "$(dirname "$0")/.." && pwd)
folder=$(mktemp -d)
trap 'rm -rf "$folder"' EXIT

measure() {
    start=$(date +%s%N)
    "$@" > /dev/null
    end=$(date +%s%N)
    echo "$(((end - start) / 1000000)) ms"
}

# both programs, on NAME.tql and NAME.sqlite of the folder
both() {
    echo "tql, $2: $(measure "$top/tql" "$folder/$1.tql")"
    echo "sqlite3, $2: $(measure sqlite3 :memory: ".read $folder/$1.sqlite")"
}

versioned="CREATE TABLE log (x INTEGER, y INTEGER, s TIMESTAMP GENERATED ALWAYS AS ROW START, e TIMESTAMP GENERATED ALWAYS AS ROW END, PERIOD FOR SYSTEM_TIME (s, e)) WITH SYSTEM VERSIONING;"
plain="CREATE TABLE log (x INTEGER, y INTEGER);"
kept="CREATE TABLE log (x INTEGER, y INTEGER, s INTEGER, e INTEGER); CREATE INDEX starts ON log (s);"

# rows from one number to another, so many in a statement
rows() {
    awk -v from="$1" -v to="$2" -v each="$3" 'BEGIN {
        for (i = from; i <= to; i++) {
            if ((i - from) % each == 0) printf "INSERT INTO log VALUES "
            printf "(%d, %d)%s", i, i % 100, ((i - from) % each == each - 1 || i == to) ? ";\n" : ", "
        }
    }'
}

# ---- one-row INSERTs

for count in 1000 10000 100000; do
    { echo "$versioned"; rows 1 $count 1; } > "$folder/inserts.tql"
    { echo "$plain"; rows 1 $count 1; } > "$folder/inserts.sqlite"
    both inserts "$count INSERTs, each a transaction"
done
{ echo "$versioned START TRANSACTION;"; rows 1 10000 1; echo "COMMIT;"; } > "$folder/inserts.tql"
{ echo "$plain BEGIN;"; rows 1 10000 1; echo "COMMIT;"; } > "$folder/inserts.sqlite"
both inserts "10000 INSERTs in one transaction"

# ---- the past: in minute i of 2011 all rows are written anew

moment() {
    awk -v minute="$1" 'BEGIN { print strftime("%Y-%m-%d %H:%M:%S", 1293840000 + minute * 60, 1) }'
}
{
    echo "$versioned"
    echo "AT TIMESTAMP '$(moment 0)';"
    rows 1 1000 1000
    awk 'BEGIN {
        for (i = 1; i <= 100; i++)
            printf "AT TIMESTAMP '\''%s'\''; UPDATE log SET y = y + 1;\n", strftime("%Y-%m-%d %H:%M:%S", 1293840000 + i * 60, 1)
    }'
} > "$folder/past.tql"
{
    echo "$kept BEGIN;"
    rows 1 1000 1000 | sed 's/), (/, 0, 99999999), (/g; s/);/, 0, 99999999);/'
    awk 'BEGIN {
        for (i = 1; i <= 100; i++) {
            printf "INSERT INTO log SELECT x, y + 1, %d, 99999999 FROM log WHERE e = 99999999;\n", i * 60
            printf "UPDATE log SET e = %d WHERE e = 99999999 AND s < %d;\n", i * 60, i * 60
        }
    }'
    echo "COMMIT;"
} > "$folder/past.sqlite"
both past "1000 rows and 100 UPDATEs of all"
awk 'BEGIN {
    for (i = 0; i < 1000; i++)
        printf "SELECT x, y FROM log FOR SYSTEM_TIME AS OF TIMESTAMP '\''%s'\'' WHERE x = %d;\n", strftime("%Y-%m-%d %H:%M:%S", 1293840000 + (i % 100) * 60 + 30, 1), i + 1
}' > "$folder/questions"
cat "$folder/questions" >> "$folder/past.tql"
awk 'BEGIN {
    for (i = 0; i < 1000; i++)
        printf "SELECT x, y FROM log WHERE s <= %d AND e > %d AND x = %d;\n", (i % 100) * 60 + 30, (i % 100) * 60 + 30, i + 1
}' >> "$folder/past.sqlite"
both past "and 1000 questions AS OF"

# ---- all rows taken away and put back

again() {
    awk -v inserts="$(rows 1 100 100)" 'BEGIN { for (i = 0; i < 1000; i++) printf "DELETE FROM log;\n%s\n", inserts }'
}
{ echo "$versioned"; rows 1 100 100; again; } > "$folder/again.tql"
{ echo "$plain"; rows 1 100 100; again; } > "$folder/again.sqlite"
both again "100 rows taken away and put back 1000 times"

# ---- a transaction that is undone

{ echo "$versioned START TRANSACTION;"; rows 1 100000 1000; echo "COMMIT;"; } > "$folder/undone.tql"
{ echo "$plain BEGIN;"; rows 1 100000 1000; echo "COMMIT;"; } > "$folder/undone.sqlite"
both undone "100000 rows made"
awk 'BEGIN { for (i = 0; i < 1000; i++) print "START TRANSACTION; INSERT INTO log VALUES (0, 0); ROLLBACK;" }' >> "$folder/undone.tql"
awk 'BEGIN { for (i = 0; i < 1000; i++) print "BEGIN; INSERT INTO log VALUES (0, 0); ROLLBACK;" }' >> "$folder/undone.sqlite"
both undone "and one row added and undone, 1000 times"
