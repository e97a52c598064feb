#!/bin/sh
# How long UPDATEs of a portion take: N of them, each a transaction, of 1 to 119 days by a WHERE on a number, in a table of N rows over N / 4
# numbers with four adjoining years each, in tql; and the same in sqlite3 over a database in memory, where each is an UPDATE and two INSERTs
# from a SELECT in one transaction, without an index and with one of the numbers. The table of tql is system-versioned and keeps every row
# that is replaced; that of sqlite3 keeps no history. The replies go to /dev/null; the time of making the table is taken off.
# Usage: benches/portions.sh [N..]    (first: make build)
set -eu
[ $# -gt 0 ] || set -- 100 1000 10000
top=$(cd "$(dirname "$0")/.." && pwd)
folder=$(mktemp -d)
trap 'rm -rf "$folder"' EXIT

# the rows of N / 4 numbers, 100 of them a statement; the word before a date is given
rows() {
    awk -v rows="$1" -v date="$2" 'BEGIN {
        for (i = 0; i < rows; i++) {
            if (i % 100 == 0) printf "INSERT INTO t VALUES "
            year = 2011 + i % 4
            printf "(%d, 0, %s'\''%d-01-01'\'', %s'\''%d-01-01'\'')%s", int(i / 4), date, year, date, year + 1,
                (i % 100 == 99 || i == rows - 1) ? ";\n" : ", "
        }
    }'
}

# for each change its number, the two days, and the new value
changes() {
    awk -v rows="$1" 'BEGIN {
        state = 1
        for (i = 1; i <= rows; i++) {
            state = (state * 16807) % 2147483647
            first = 1293840000 + state % 1340 * 86400
            last = first + (1 + int(state / 1340) % 119) * 86400
            print int(state / 7) % int(rows / 4), strftime("%Y-%m-%d", first, 1), strftime("%Y-%m-%d", last, 1), i
        }
    }'
}

measure() {
    start=$(date +%s%N)
    "$@" > /dev/null
    end=$(date +%s%N)
    echo $(((end - start) / 1000))
}

# the lower of three runs, in microseconds
best() {
    for _ in 1 2 3; do measure "$@"; done | sort -n | head -1
}

told() {
    echo "$1: $((($3 - $2) / 1000)) ms, $((($3 - $2) / $4)) us each"
}

for count in "$@"; do
    {
        echo "CREATE TABLE t (x INTEGER, y INTEGER, a DATE, b DATE, s TIMESTAMP GENERATED ALWAYS AS ROW START,"
        echo "  e TIMESTAMP GENERATED ALWAYS AS ROW END, PERIOD FOR p (a, b), PERIOD FOR SYSTEM_TIME (s, e)) WITH SYSTEM VERSIONING;"
        rows "$count" "DATE "
    } > "$folder/tql_rows.sql"
    {
        echo "CREATE TABLE t (x INTEGER, y INTEGER, a TEXT NOT NULL, b TEXT NOT NULL, CHECK (a < b)); BEGIN;"
        rows "$count" ""
        echo "COMMIT;"
    } > "$folder/plain_rows.sql"
    { cat "$folder/plain_rows.sql"; echo "CREATE INDEX of_x ON t (x);"; } > "$folder/index_rows.sql"
    changes "$count" > "$folder/changes"
    awk '{ printf "UPDATE t FOR PORTION OF p FROM DATE '\''%s'\'' TO DATE '\''%s'\'' SET y = %d WHERE x = %d;\n", $2, $3, $4, $1 }' \
        "$folder/changes" > "$folder/tql_changes.sql"
    awk '{
        n = $1; f = "'\''" $2 "'\''"; g = "'\''" $3 "'\''"
        printf "BEGIN; INSERT INTO t SELECT x, y, a, %s FROM t WHERE x = %d AND a < %s AND b > %s;\n", f, n, f, f
        printf "INSERT INTO t SELECT x, y, %s, b FROM t WHERE x = %d AND a < %s AND b > %s;\n", g, n, g, g
        printf "UPDATE t SET y = %d, a = max(a, %s), b = min(b, %s) WHERE x = %d AND a < %s AND b > %s; COMMIT;\n", $4, f, g, n, g, f
    }' "$folder/changes" > "$folder/sqlite_changes.sql"
    for way in tql plain index; do
        other=$([ $way = tql ] && echo tql || echo sqlite)
        cat "$folder/${way}_rows.sql" "$folder/${other}_changes.sql" > "$folder/${way}_all.sql"
    done
    told "tql, $count" "$(best "$top/tql" "$folder/tql_rows.sql")" "$(best "$top/tql" "$folder/tql_all.sql")" "$count"
    for way in plain index; do
        told "sqlite3 ($way), $count" "$(best sqlite3 :memory: ".read $folder/${way}_rows.sql")" \
            "$(best sqlite3 :memory: ".read $folder/${way}_all.sql")" "$count"
    done
done
