#!/usr/bin/env bash
# Measures the sending of a body over a folder, 1 GiB to /dev/null: `follow_owned` with a length and in chunks, beside a
# plain loop of one read and one write for each 64 KiB. Each is run five times, in turn, and the best rate of each stands.
# Usage: bench/follow.sh [FOLDER]
set -eu
root=$(cd "$(dirname "$0")/.." && pwd)
scratch=$(mktemp -d "${1:-/tmp}/bench-follow.XXXXXX")
trap 'rm -rf "$scratch"' EXIT
. "$root/bench/crate.sh"
bench_crate follow acng_base acng_site acng_keeper acng_head acng_grow
rt run -- "$scratch/cache" > "$scratch/log" 2>&1 || { cat "$scratch/log"; exit 1; }
rm -rf "$scratch/cache"

for _ in 1 2 3 4 5; do
    out/bench_follow "$scratch/cache"
    rm -rf "$scratch/cache"
done > "$scratch/lines"

awk '$2 > best[$1] { best[$1] = $2 }
    END {
        printf "plain  %5.0f MB/s\n", best["plain"] / 1e6
        printf "length %5.0f MB/s, %.2f of it\n", best["follow"] / 1e6, best["follow"] / best["plain"]
        printf "chunks %5.0f MB/s, %.2f of it\n", best["chunked"] / 1e6, best["chunked"] / best["plain"]
    }' "$scratch/lines"
