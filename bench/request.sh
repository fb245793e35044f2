#!/usr/bin/env bash
# Measures the reading of requests: 200,000 heads of 150 bytes, pipelined from memory, each read by `read_request` and
# answered by `reply_head`, beside `httparse` alone over the same bytes. Each is run five times, and the best rate stands.
set -eu
root=$(cd "$(dirname "$0")/.." && pwd)
scratch=$(mktemp -d /tmp/bench-request.XXXXXX)
trap 'rm -rf "$scratch"' EXIT
. "$root/bench/crate.sh"
bench_crate request acng_base acng_request
sed -i "s,^bench_request: .*,& httparse," "$scratch/repo/crates.txt"
rt run > "$scratch/log" 2>&1 || { cat "$scratch/log"; exit 1; }
for _ in 1 2 3 4 5; do out/bench_request; done | awk '$2 > best[$1] { best[$1] = $2 }
    END {
        printf "request  %5.2f million heads a second\n", best["request"] / 1e6
        printf "httparse %5.2f million heads a second\n", best["httparse"] / 1e6
    }'
