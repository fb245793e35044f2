#!/usr/bin/env bash
# Measures `read_packages` on a made list of 60,000 stanzas and 60 MB, beside python3's plain split of the same text into
# lines, in turn and five times each; the best time of each stands. The memory is what the reading takes at its most beyond
# a run that only holds the text. Usage: bench/index.sh [FOLDER]
set -eu
root=$(cd "$(dirname "$0")/.." && pwd)
scratch=$(mktemp -d "${1:-/tmp}/bench-index.XXXXXX")
trap 'rm -rf "$scratch"' EXIT
. "$root/bench/crate.sh"
python3 "$root/bench/index/packages.py" "$scratch/Packages"
bench_crate index acng_base acng_stanza acng_index
rt run -- load "$scratch/Packages" > "$scratch/log" 2>&1 || { cat "$scratch/log"; exit 1; }

split() {
    python3 - "$scratch/Packages" <<'END'
import sys, time
text = open(sys.argv[1], "rb").read()
begun = time.perf_counter()
lines = text.split(b"\n")
print("split", int((time.perf_counter() - begun) * 1e6), len(lines))
END
}

# The most memory of a run, in kilobytes.
most() {
    python3 - "$@" <<'END'
import resource, subprocess, sys
subprocess.run(sys.argv[1:], stdout=subprocess.DEVNULL, check=True)
print(resource.getrusage(resource.RUSAGE_CHILDREN).ru_maxrss)
END
}

ls -l "$scratch/Packages" | awk '{ printf "text  %.1f MB\n", $5 / 1e6 }'
for _ in 1 2 3 4 5; do
    out/bench_index packages "$scratch/Packages" | awk '{ print "read", $5, $1 }'
    split
done | awk '!($1 in best) || $2 < best[$1] { best[$1] = $2 } { count[$1] = $3 }
    END {
        printf "read  %.3f s, %d names\n", best["read"] / 1e6, count["read"]
        printf "split %.3f s, %d lines\n", best["split"] / 1e6, count["split"]
    }'
echo "$(most out/bench_index packages "$scratch/Packages") $(most out/bench_index load "$scratch/Packages")" |
    awk '{ printf "beside the text %.1f MB\n", ($1 - $2) / 1024 }'
