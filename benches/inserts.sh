#!/bin/sh
# How long 100,000 one-row INSERTs and one SELECT of them take: in tql, and the same in sqlite3 over a database in memory.
# Each INSERT is a transaction of its own. The replies go to /dev/null.
# Usage: benches/inserts.sh [ROWS]    (first: make build)
set -eu
rows=${1:-100000}
top=$(cd "$(dirname "$0")/.." && pwd)
folder=$(mktemp -d)
trap 'rm -rf "$folder"' EXIT

inserts() {
    awk -v rows="$rows" 'BEGIN {
        for (i = 1; i <= rows; i++)
            printf "INSERT INTO log VALUES (%d, '\''name %d'\'', DATE '\''2011-%02d-%02d'\'');\n", i, i % 1000, i % 12 + 1, i % 28 + 1
    }'
}

{
    echo "CREATE TABLE log (x INTEGER, name VARCHAR(20), day DATE, s TIMESTAMP GENERATED ALWAYS AS ROW START, e TIMESTAMP GENERATED ALWAYS AS ROW END, PERIOD FOR SYSTEM_TIME (s, e)) WITH SYSTEM VERSIONING;"
    inserts
} > "$folder/tql_inserts.sql"
{
    cat "$folder/tql_inserts.sql"
    echo "SELECT * FROM log;"
} > "$folder/tql_all.sql"
{
    echo "CREATE TABLE log (x INTEGER, name VARCHAR(20), day DATE);"
    inserts | sed "s/DATE '/'/"
} > "$folder/sqlite_inserts.sql"
{
    cat "$folder/sqlite_inserts.sql"
    echo "SELECT * FROM log ORDER BY x, name, day;"
} > "$folder/sqlite_all.sql"

measure() {
    start=$(date +%s%N)
    "$@" > /dev/null
    end=$(date +%s%N)
    echo "$(((end - start) / 1000000)) ms"
}

echo "tql, $rows INSERTs: $(measure "$top/tql" "$folder/tql_inserts.sql")"
echo "tql, $rows INSERTs and a SELECT: $(measure "$top/tql" "$folder/tql_all.sql")"
echo "sqlite3, $rows INSERTs: $(measure sqlite3 :memory: ".read $folder/sqlite_inserts.sql")"
echo "sqlite3, $rows INSERTs and a SELECT: $(measure sqlite3 :memory: ".read $folder/sqlite_all.sql")"
