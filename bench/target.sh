#!/usr/bin/env bash
# Measures the reading of a target under 20,000 merging entries: a package's URL at one of the mirrors, and 4,000 segments
# that no entry fits. The best of five runs each, a reading; and what valgrind, where it is there, counts of allocations.
set -eu
root=$(cd "$(dirname "$0")/.." && pwd)
scratch=$(mktemp -d "${1:-/tmp}/bench-target.XXXXXX")
trap 'rm -rf "$scratch"' EXIT
. "$root/bench/crate.sh"
bench_crate target acng_base acng_conf acng_remap
rt run -- package 1 > "$scratch/log" 2>&1 || { cat "$scratch/log"; exit 1; }

measure() {
    for _ in 1 2 3 4 5; do out/bench_target "$1" "$2"; done | sort -n | head -1 |
        awk -v name="$1" '{ printf "%s %.1f us\n", name, $1 / 1000 }'
}
measure package 100000
measure deep 1000

allocations() { valgrind out/bench_target "$1" "$2" 2>&1 | awk '/total heap usage/ { gsub(",", ""); print $5, $9 }'; }
if command -v valgrind > /dev/null; then
    for kind in package deep; do
        paste -d' ' <(allocations $kind 101) <(allocations $kind 1) |
            awk -v name=$kind '{ printf "%s: %.1f allocations, %.1f bytes\n", name, ($1 - $3) / 100, ($2 - $4) / 100 }'
    done
fi
