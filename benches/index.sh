#!/bin/sh
# How long the two interval indexes take to add an entry, to answer a stab and to remove an entry.
#
# Usage: benches/index.sh [COUNT..]        (make bench-index [COUNTS="1000 10000"]; without counts: 1000 10000 100000)
#
# The program is index_times.txt, a main.rt under another ending, so that the gate does not prove it. Here it is made a crate of a copy
# of the repository, and proved and run there: a minute or two, and those of tql_list_index and what lies below it where they are not yet
# built. The copy goes at the end.
set -eu
[ $# -gt 0 ] || set -- 1000 10000 100000
cd "$(dirname "$0")/.."
room=$(mktemp -d)
trap 'rm -rf "$room"' EXIT
cp -a crates crates.txt HANDLES "$room"
mkdir -p "$room/crates/index_times/src"
cp benches/index_times.txt "$room/crates/index_times/src/main.rt"
echo "index_times: tql_index tql_tree_index tql_list_index tql_period tql_memory anyhow" >> "$room/crates.txt"
cd "$room/crates/index_times"
rt run -- "$@"
