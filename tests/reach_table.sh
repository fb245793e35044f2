#!/usr/bin/env bash
# The table of caches for reach. What the model of the rules prints is what stands beside the table's program, which the gate
# runs: the caches that it reads, and what it has to print of them.
set -u
cd "$(dirname "$0")/.." || exit 1
check=reach_table
. tests/common.sh
need python3
table=crates/acng_reach_table

# same PART: the model's text of it beside the one that is kept
same() {
    python3 tests/model/reach.py "$1" > "$work/$1" 2> "$work/error" && cmp -s "$work/$1" "$table/$1"
    said "$1" $? "the model gives another text: $(diff "$work/$1" "$table/$1" | head -n 3; cat "$work/error")"
}

same stdin
same stdout
[ "$(grep -c '^= ' "$table/stdin")" -ge 40 ]
said cases $? "fewer than 40"
exit "$failed"
