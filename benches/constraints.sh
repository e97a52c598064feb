#!/bin/sh
# How long changes under keys and references take, in tql and in sqlite3 over a database in memory, at several sizes N:
#   child     N one-row INSERTs into a child whose reference has PERIOD, over a parent of N rows; sqlite3: a plain FOREIGN KEY
#   key       N one-row INSERTs under a key WITHOUT OVERLAPS; sqlite3: a trigger that looks for rows that overlap, by an index
#   portion   N UPDATEs of a portion under such a key, each by the key's column; sqlite3: an UPDATE and two INSERTs under that trigger
#   insert    one INSERT of N rows under such a key; sqlite3: N rows in one INSERT under that trigger
#   parent    one UPDATE of all N rows of a parent of N child rows; sqlite3: the same under the plain FOREIGN KEY
# The time of what comes before is taken off. Usage: benches/constraints.sh [N..]    (first: make build; TQL=path of another program)
set -eu
[ $# -gt 0 ] || set -- 1000 10000 100000
top=$(cd "$(dirname "$0")/.." && pwd)
tql=${TQL:-$top/tql}
folder=$(mktemp -d)
trap 'rm -rf "$folder"' EXIT
overlap="CREATE TRIGGER apart BEFORE INSERT ON t WHEN EXISTS (SELECT 1 FROM t WHERE k = NEW.k AND a < NEW.b AND b > NEW.a) BEGIN SELECT RAISE(ABORT, 'overlap'); END;"

measure() {
    start=$(date +%s%N)
    "$@" > /dev/null
    end=$(date +%s%N)
    echo $(((end - start) / 1000))
}

# the lower of two runs, in microseconds
best() {
    for _ in 1 2; do measure "$@"; done | sort -n | head -1
}

# told NAME WHO BEFORE ALL N
told() {
    echo "$1, $2, $5: $((($4 - $3) / 1000)) ms, $((($4 - $3) / $5)) us each"
}

# rows TABLE N DATE FORMAT MANY: rows (i, day, day + 30) by a format, MANY of them a statement
rows() {
    awk -v table="$1" -v rows="$2" -v date="$3" -v many="$4" 'BEGIN {
        for (i = 0; i < rows; i++) {
            if (i % many == 0) printf "INSERT INTO %s VALUES ", table
            printf "(%d, 0, %s'\''2011-01-01'\'', %s'\''2012-01-01'\'')%s", i, date, date, (i % many == many - 1 || i == rows - 1) ? ";\n" : ", "
        }
    }'
}

both() {
    name=$1 count=$2
    for who in tql sqlite; do
        cat "$folder/$who.before" "$folder/$who.more" > "$folder/$who.all"
    done
    told "$name" tql "$(best "$tql" "$folder/tql.before")" "$(best "$tql" "$folder/tql.all")" "$count"
    told "$name" sqlite3 "$(best sqlite3 :memory: ".read $folder/sqlite.before")" "$(best sqlite3 :memory: ".read $folder/sqlite.all")" "$count"
}

tql_key="CREATE TABLE t (k INTEGER, x INTEGER, a DATE, b DATE, PERIOD FOR p (a, b), PRIMARY KEY (k, p WITHOUT OVERLAPS));"
sqlite_key="CREATE TABLE t (k INTEGER NOT NULL, x INTEGER, a TEXT NOT NULL, b TEXT NOT NULL, CHECK (a < b)); CREATE INDEX of_k ON t (k, a); $overlap"
tql_child="CREATE TABLE c (n INTEGER, k INTEGER, a DATE, b DATE, PERIOD FOR q (a, b), FOREIGN KEY (k, PERIOD q) REFERENCES t (k, PERIOD p));"
sqlite_parent="PRAGMA foreign_keys = ON; CREATE TABLE t (k INTEGER PRIMARY KEY, x INTEGER, a TEXT, b TEXT);"
sqlite_child="CREATE TABLE c (k INTEGER REFERENCES t (k), n INTEGER, a TEXT, b TEXT); CREATE INDEX of_c ON c (k);"

for count in "$@"; do
    # child
    { echo "$tql_key $tql_child"; rows t "$count" "DATE " 100; } > "$folder/tql.before"
    rows "c (k, n, a, b)" "$count" "DATE " 1 > "$folder/tql.more"
    { echo "$sqlite_parent $sqlite_child"; rows t "$count" "" 100; } > "$folder/sqlite.before"
    rows c "$count" "" 1 > "$folder/sqlite.more"
    both child "$count"
    # key
    echo "$tql_key" > "$folder/tql.before"
    rows t "$count" "DATE " 1 > "$folder/tql.more"
    echo "$sqlite_key" > "$folder/sqlite.before"
    rows t "$count" "" 1 > "$folder/sqlite.more"
    both key "$count"
    # portion
    { echo "$tql_key"; rows t "$count" "DATE " 100; } > "$folder/tql.before"
    { echo "$sqlite_key"; rows t "$count" "" 100; } > "$folder/sqlite.before"
    awk -v rows="$count" 'BEGIN { for (i = 0; i < rows; i++)
        printf "UPDATE t FOR PORTION OF p FROM DATE '\''2011-03-01'\'' TO DATE '\''2011-04-01'\'' SET x = 1 WHERE k = %d;\n", i }' > "$folder/tql.more"
    awk -v rows="$count" 'BEGIN { for (i = 0; i < rows; i++) {
        printf "BEGIN; UPDATE t SET x = 1, a = '\''2011-03-01'\'', b = '\''2011-04-01'\'' WHERE k = %d;", i
        printf "INSERT INTO t VALUES (%d, 0, '\''2011-01-01'\'', '\''2011-03-01'\''), (%d, 0, '\''2011-04-01'\'', '\''2012-01-01'\''); COMMIT;\n", i, i
    } }' > "$folder/sqlite.more"
    both portion "$count"
    # insert: 10,000 rows a statement at most, since a statement has at most 1,048,576 bytes
    echo "$tql_key" > "$folder/tql.before"
    rows t "$count" "DATE " 10000 > "$folder/tql.more"
    echo "$sqlite_key" > "$folder/sqlite.before"
    rows t "$count" "" 10000 > "$folder/sqlite.more"
    both insert "$count"
    # parent
    { echo "$tql_key $tql_child"; rows t "$count" "DATE " 100; rows "c (k, n, a, b)" "$count" "DATE " 100; } > "$folder/tql.before"
    echo "UPDATE t SET x = x + 1;" > "$folder/tql.more"
    { echo "$sqlite_parent $sqlite_child"; rows t "$count" "" 100; rows c "$count" "" 100; } > "$folder/sqlite.before"
    echo "UPDATE t SET x = x + 1;" > "$folder/sqlite.more"
    both parent "$count"
done
