#!/usr/bin/env bash
# Measures `FolderKeeper` beside `dd` on one folder: 1 GiB in pieces of 64 KiB, written and read back, without a sync.
# Each is run five times, in turn, and the best rate of each stands. Then what a body of 1, 10 and 100 MiB costs to seal
# where it isn't flushed before and where it is; the middle one of five times stands. Usage: bench/keeper.sh [FOLDER]
set -eu
root=$(cd "$(dirname "$0")/.." && pwd)
scratch=$(mktemp -d "${1:-/tmp}/bench-keeper.XXXXXX")
trap 'rm -rf "$scratch"' EXIT
. "$root/bench/crate.sh"
bench_crate keeper acng_base acng_keeper
rt run -- "$scratch/cache" > "$scratch/log" 2>&1 || { cat "$scratch/log"; exit 1; }
rm -rf "$scratch/cache"

# Bytes a second of one run of dd, whose last line tells bytes and seconds.
rate() { awk '/copied/ { for (i = 1; i <= NF; i++) if ($i ~ /^s,?$/) printf "%.0f\n", $1 / $(i - 1) }'; }

for _ in 1 2 3 4 5; do
    out/bench_keeper "$scratch/cache"
    rm -rf "$scratch/cache"
    echo "dd_write $(LC_ALL=C dd if=/dev/zero of="$scratch/dd" bs=64k count=16384 2>&1 | rate)"
    echo "dd_read $(LC_ALL=C dd if="$scratch/dd" of=/dev/null bs=64k 2>&1 | rate)"
    rm -f "$scratch/dd"
done > "$scratch/lines"

awk 'NF == 2 && $2 > best[$1] { best[$1] = $2 }
    END {
        printf "append  %5.0f MB/s, dd %5.0f MB/s\n", best["append"] / 1e6, best["dd_write"] / 1e6
        printf "read_at %5.0f MB/s, dd %5.0f MB/s\n", best["read_at"] / 1e6, best["dd_read"] / 1e6
    }' "$scratch/lines"
# The middle one of five times, in milliseconds.
middle() {
    awk -v what="$1" -v mib="$2" '$1 == what && $2 == mib { print $3 }' "$scratch/lines" | sort -n |
        awk 'NR == 3 { printf "%.2f", $1 / 1000 }'
}
for mib in 1 10 100; do
    echo "$mib MiB: seal $(middle seal $mib) ms; flush $(middle flush $mib) ms, and seal after it $(middle flushed_seal $mib) ms"
done
