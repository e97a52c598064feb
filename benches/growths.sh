#!/bin/sh
# How many blocks of memory joins, groups and orders ask for: each growth is a place where a statement may be refused for want of memory.
# A join of 300 by 300 and of 1,000 by 1,000 rows on an equality, and GROUP BY and ORDER BY over the larger table.
# Usage: benches/growths.sh [SCRIPT]    (a script of one statement a line, without `;`, in the place of these)
#
# The program is growths.txt, a main.rt under another ending, so that the gate does not prove it. Here it is made a crate of a copy of the
# repository, and run there with checks and without a proof: what it counts does not depend on one. The copy goes at the end.
set -eu
script=$([ $# -eq 0 ] || realpath "$1")
cd "$(dirname "$0")/.."
room=$(mktemp -d)
trap 'rm -rf "$room"' EXIT

# a table of so many rows, made by one statement
table() {
    echo "CREATE TABLE $1 (x INTEGER, y INTEGER)"
    awk -v table="$1" -v count="$2" 'BEGIN {
        printf "INSERT INTO %s VALUES ", table
        for (i = 1; i <= count; i++) printf "(%d, %d)%s", i, i % 7, i == count ? "\n" : ", "
    }'
}
statements() {
    for count in 300 1000; do
        table "a$count" $count
        table "b$count" $count
        echo "SELECT a$count.x, b$count.y FROM a$count JOIN b$count ON a$count.x = b$count.x"
        echo "SELECT a$count.x, b$count.y FROM a$count LEFT JOIN b$count ON a$count.x = b$count.x"
    done
    echo "SELECT y, COUNT(*), SUM(x) FROM a1000 GROUP BY y"
    echo "SELECT x, y FROM a1000 ORDER BY y DESC"
    echo "SELECT DISTINCT y FROM a1000"
}
mkdir -p "$room/crates/growths/src"
cp crates.txt HANDLES "$room"
for crate in crates/*; do
    mkdir -p "$room/$crate"
    for part in "$crate"/*; do
        [ "$part" = "$crate/out" ] || cp -a "$part" "$room/$crate"
    done
done
cp benches/growths.txt "$room/crates/growths/src/main.rt"
echo "growths: tql" >> "$room/crates.txt"
if [ -n "$script" ]; then cp "$script" "$room/statements.sql"; else statements > "$room/statements.sql"; fi
cd "$room/crates/growths"
rt try --data "statements.sql=$room/statements.sql"
