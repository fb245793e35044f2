#!/usr/bin/env bash
# Measures a body over memory that 1, 16 and 64 threads follow while one loads it in pieces of 64 KiB, by a proved program of its
# own: bytes a second into sinks that discard, all together; the same of a body that was loaded before, and what the loader does
# with nobody there. Beside it stand the same bytes, copied piece by piece once for each follower, by one thread and by as many
# threads as there are followers. The body has 16 MiB, which the processor's own memory holds, and 128 MiB, which it doesn't. Each
# is run five times, in turn, and the middle one stands. Then the time from before an append of 4 KiB to a body that all followers
# wait at, until the last follower's sink has it: of 300 appends the middle one, the thirtieth of the slowest and the slowest.
# PROGRAM is one that an earlier run built, so that nothing is built beside the measuring; with `build` in its place the program
# is built into FOLDER, and nothing is measured.
# Usage: bench/follow_crowd.sh [FOLDER [PROGRAM | build]]
set -eu
root=$(cd "$(dirname "$0")/.." && pwd)
folder=${1:-/tmp}
scratch=$(mktemp -d "$folder/bench-follow_crowd.XXXXXX")
trap 'rm -rf "$scratch"' EXIT
. "$root/bench/crate.sh"
program=${2:-build}
if [ "$program" = build ]; then
    bench_crate follow_crowd acng_base acng_site acng_keeper acng_head acng_grow
    rt run -- plain 1 1 > "$scratch/log" 2>&1 || { cat "$scratch/log"; exit 1; }
    program=$PWD/out/bench_follow_crowd
fi
if [ "${2:-}" = build ]; then
    cp "$program" "$folder/bench_follow_crowd"
    exit 0
fi
echo "load of the machine: $(cut -d ' ' -f 1-3 /proc/loadavg)"

# middle WHAT FOLLOWERS MIB: the middle rate of the five
middle() {
    awk -v what="$1" -v crowd="$2" -v mib="$3" '$1 == what && $2 == crowd && $3 == mib { print $4 }' "$scratch/lines" |
        sort -n | sed -n 3p
}
# measure WHAT FOLLOWERS MIB: one run
measure() { echo "$* $("$program" "$@" | cut -d ' ' -f 2)"; }
for _ in 1 2 3 4 5; do
    for mib in 16 128; do
        measure load 1 "$mib"
        for crowd in 1 16 64; do
            for what in plain spread follow held; do measure "$what" "$crowd" "$mib"; done
        done
    done
done > "$scratch/lines"
for mib in 16 128; do
    for crowd in 1 16 64; do
        for what in follow plain held spread; do middle "$what" "$crowd" "$mib"; done |
            paste -s -d ' ' | sed "s/^/$mib $crowd $(middle load 1 "$mib") /"
    done
done | awk '
    $1 != mib { mib = $1; printf "%d MiB: the loader alone %.0f MB/s\n", mib, $3 / 1e6 }
    {
        printf "%2d followers %5.0f MB/s; one thread copies %5.0f MB/s: %.2f of it; ", $2, $4 / 1e6, $5 / 1e6, $4 / $5
        printf "of a body loaded before %5.0f MB/s: %.2f of it; a thread each copies %5.0f MB/s\n", $6 / 1e6, $6 / $5, $7 / 1e6
    }'

for crowd in 1 16 64; do
    "$program" delay "$crowd" 300 | cut -d ' ' -f 2 | sort -n | awk -v crowd="$crowd" '{ delay[NR] = $1 / 1000 }
        END {
            printf "%2d followers: the last has an append after %.0f us; ", crowd, delay[int((NR + 1) / 2)]
            printf "the thirtieth slowest of %d %.0f us, the slowest %.0f us\n", NR, delay[NR - 29], delay[NR]
        }'
done
