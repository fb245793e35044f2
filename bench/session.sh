#!/usr/bin/env bash
# Measures the requests of connections in memory, by a proved program of its own: 1,000 connections, each of which sends 1,000
# requests for held files, one behind another, are served by `session_owned`, and what it writes is thrown away. One file of 8 KB,
# 100 such files in turn, and one file of 100 bytes; the best of three runs each. Then the allocations of a request, which are those
# of 11 connections without those of one, over 10,000, where there is a C compiler to count them by. Where perf is there, it says
# where the time goes. PROGRAM is one that an earlier run built. QUIET is a command that runs what stands behind it, as one that
# stops other work meanwhile: all is measured under it. Usage: [QUIET=COMMAND] bench/session.sh [PROGRAM]
set -eu
root=$(cd "$(dirname "$0")/.." && pwd)
scratch=$(mktemp -d /tmp/bench-session.XXXXXX)
trap 'rm -rf "$scratch"' EXIT
. "$root/bench/crate.sh"
program=${1:-}
if [ -z "$program" ]; then
    bench_crate session acng_base acng_stanza acng_index acng_site acng_conf acng_remap acng_class acng_keeper acng_head \
        acng_request acng_grow acng_rows acng_desk acng_answer acng_fetch acng_reply acng_reach acng_expire acng_report acng_serve
    # That an empty keeper is faithful is as in the table of the sessions.
    cp "$root/crates/acng_serve_table/proofs/Empty.antt" proofs/
    echo 'mod Empty' > proofs/Lib.antt
    rt run -- 8192 1 1 > "$scratch/log" 2>&1 || { cat "$scratch/log"; exit 1; }
    program=$PWD/out/bench_session
fi

# rate SIZE FILES: the requests a second
rate() {
    for _ in 1 2 3; do "$program" "$1" "$2" 1000; done > "$scratch/lines"
    awk -v size="$1" -v files="$2" '
        $1 != "session" || $3 != 1000000 { print "session: not all of the replies were of held files: " $0; failed = 1; exit 1 }
        $2 > best { best = $2 }
        { bytes = $4 }
        END {
            if (failed) exit 1
            printf "%d bytes, %d held: %d requests a second, %.2f us each; %.0f bytes of each reply\n",
                size, files, best, 1e6 / best, bytes / 1000000
        }' "$scratch/lines"
}

# taken CONNECTIONS: allocations and their bytes
taken() {
    LD_PRELOAD=$scratch/count.so "$program" 8192 1 "$1" 2>&1 > "$scratch/line" | awk '$1 == "allocations" { print $2, $4 }'
}

measure() {
    echo "load of the machine: $(cut -d ' ' -f 1-3 /proc/loadavg)"
    rate 8192 1
    rate 8192 100
    rate 100 1
    if [ -e "$scratch/count.so" ]; then
        echo "$(taken 11) $(taken 1)" |
            awk '{ printf "a request: %.3f allocations, %.0f bytes\n", ($1 - $3) / 10000, ($2 - $4) / 10000 }'
    fi
    command -v perf > /dev/null || return 0
    for size in 8192 100; do
        perf record -q -o "$scratch/perf" "$program" "$size" 1 200 > /dev/null 2>&1 || return 0
        echo "where the requests for $size bytes spend their time"
        perf report -q -i "$scratch/perf" --no-children --percent-limit 1 --stdio -F overhead,symbol 2> /dev/null |
            grep '%' | head -n 30
    done
}

export scratch program
export -f rate taken measure
if command -v cc > /dev/null; then
    cc -O2 -shared -fPIC -o "$scratch/count.so" "$root/bench/session/count.c"
else
    echo 'session: there is no C compiler (cc), so the allocations of a request are not counted'
fi
${QUIET:-} bash -euc measure
