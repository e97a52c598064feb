#!/bin/sh
# Runs a script of SQL, and prints its replies, tables as boxes.
#
# Usage: tools/run.sh SCRIPT        (make run [SCRIPT=path])
#
# By ./tql, which `make build` proves, where it is newer than every source. Else by ./tql-quick, which tools/quick.py compiles without a proof
# where it is not there, or a source is newer. The status is the program's own (0, 1 where a statement was refused, 3), or 2 where it was not run.
# make can pass on no status of its own: make run ends with 0 where this one is 0 or 1, and says so where it is 1.
set -eu
[ $# -eq 1 ] && [ -f "$1" ] && [ -r "$1" ] || { echo "usage: make run [SCRIPT=path], of a file that can be read" >&2; exit 2; }
script=$(realpath "$1")
cd "$(dirname "$0")/.."

# Whether the program $1 is newer than crates.txt, the code, and the other sources whose names match $2.
is_new() {
    [ -x "$1" ] && [ -z "$(find crates crates.txt -name out -prune -o \( -name '*.rt' -o -name "$2" -o -name crates.txt \) -newer "$1" -print -quit)" ]
}
if is_new tql '*.antt'; then
    exec ./tql --format box "$script"
fi
is_new tql-quick '*.rt' || tools/quick.py --silent >&2 || exit 2
echo "make run: by ./tql-quick, which is compiled without a proof; make build proves the program" >&2
exec ./tql-quick --format box "$script"
