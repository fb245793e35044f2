#!/usr/bin/env bash
# Measures `AnswerReader`: a counted body and a body in chunks of 16 KiB, fed in pieces of 64 KiB, beside a plain pass
# over the same memory; and heads of 300 bytes beside `httparse` alone. The best of five runs stands.
# Usage: bench/answer.sh
set -eu
root=$(cd "$(dirname "$0")/.." && pwd)
scratch=$(mktemp -d /tmp/bench-answer.XXXXXX)
trap 'rm -rf "$scratch"' EXIT
. "$root/bench/crate.sh"
bench_crate answer acng_base acng_answer
sed -i "s/^bench_answer: .*/& httparse/" "$scratch/repo/crates.txt"
rt run > "$scratch/log" 2>&1 || { cat "$scratch/log"; exit 1; }

for _ in 1 2 3 4 5; do out/bench_answer; done | awk '
    $1 ~ /_nanos$/ { if (!($1 in best) || $2 < best[$1]) best[$1] = $2; next }
    $2 > best[$1] { best[$1] = $2 }
    END {
        printf "counted body %7.1f GB/s\n", best["counted"] / 1e9
        printf "chunks       %7.1f GB/s, a plain pass %.1f GB/s\n", best["chunked"] / 1e9, best["pass"] / 1e9
        printf "head         %7d ns, httparse alone %d ns\n", best["head_nanos"], best["httparse_nanos"]
    }'
