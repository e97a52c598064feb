#!/bin/sh
# An auditor: is the journal of the payroll the one whose last line the notary got, or did someone change a byte of it?
# Run it as `examples/audit.sh ./tql`. What it prints is at its end.
set -e
tql=$(realpath "$1") script=$(realpath "$(dirname "$0")/pay.sql") folder=$(mktemp -d)
trap 'rm -r "$folder"' EXIT
cd "$folder"

# January: the office keeps its books, and gives the last line to a notary.
"$tql" --quiet --format csv --journal pay.jn "$script" > replies.csv
line=$("$tql" --verify pay.jn | tail -n 1 | cut -c 4-)

# April: the books went on. The notary's line is still in them.
"$tql" --quiet --journal pay.jn -c "DELETE FROM pay WHERE employee = 7" > replies.txt
"$tql" --verify pay.jn "$line" > verified.txt && echo "the journal has the notary's line"

# Someone raises a rate in the file. Without tql: each line is the SHA-256 of all lines before it.
sed 's/250000/350000/' pay.jn > forged.jn
at=$(grep -n "^-- $line" forged.jn | cut -d : -f 1)
echo "$line  -" > notary.sha256
head -n $((at - 1)) pay.jn | sha256sum --check notary.sha256
head -n $((at - 1)) forged.jn | sha256sum --check notary.sha256 2> warning.txt || echo "sha256sum: forged.jn was changed"

# With tql: where it was changed.
"$tql" --verify forged.jn 2> said.txt || echo "tql: status $?"
cut -d , -f 1 said.txt | cut -d ';' -f 1

# the journal has the notary's line
# -: OK
# -: FAILED
# sha256sum: forged.jn was changed
# tql: status 1
# tql: journal forged.jn: from line 10 on it is not what was written
