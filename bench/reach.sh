#!/usr/bin/env bash
# Measures what the indexes of a cache reach, over a folder of 100,000 held files of which four indexes name 60,000, and an import
# of one file of 1 GB that an index names, by a proved program of its own. Reach is told beside the start of the desk that comes
# before it, in time and in memory; the import beside `sha256sum` of the same file, and beside `dd` of it into a new file with a
# sync, which an import makes too. The best of three runs each; all files are in the system's memory by then. Where perf is there,
# it says where an import and a reach spend their time. PROGRAM is one that an earlier run built. QUIET is a command that runs what
# stands behind it, as one that stops other work meanwhile: all is measured under it, and what that needs is made before.
# Usage: [QUIET=COMMAND] bench/reach.sh [FOLDER [PROGRAM]]
set -eu
root=$(cd "$(dirname "$0")/.." && pwd)
[ -x /usr/bin/time ] || { echo "reach: there is no /usr/bin/time"; exit 1; }
scratch=$(mktemp -d "${1:-/tmp}/bench-reach.XXXXXX")
trap 'rm -rf "$scratch"' EXIT
. "$root/bench/crate.sh"
program=${2:-}
if [ -z "$program" ]; then
    bench_crate reach acng_base acng_stanza acng_index acng_site acng_conf acng_class acng_keeper acng_head acng_grow acng_rows \
        acng_desk acng_reach acng_import
    rt run -- start "$scratch/empty" > "$scratch/log" 2>&1 || { cat "$scratch/log"; exit 1; }
    program=$PWD/out/bench_reach
fi

# shares WORD..: the functions that took the most of a run of the program, where perf is there
shares() {
    command -v perf > /dev/null || return 0
    perf record -q -o "$scratch/perf" "$program" "$@" > /dev/null 2>&1 || return 0
    perf report -q -i "$scratch/perf" --no-children --percent-limit 2 --stdio -F overhead,symbol 2> /dev/null | grep '%' | head -n 12
}

# ---- reach

# runs KIND: three runs over the large folder, each a line of what the program prints, its whole seconds and its kilobytes.
runs() {
    for _ in 1 2 3; do
        /usr/bin/time -f '%e %M' -o "$scratch/used" "$program" "$1" "$scratch/cache" > "$scratch/line"
        echo "$(cat "$scratch/line") $(cat "$scratch/used")"
    done
}

measure_reach() {
    echo "load of the machine: $(cut -d ' ' -f 1-3 /proc/loadavg)"
    runs start > "$scratch/lines"
    runs of >> "$scratch/lines"
    awk '
        { time = $(NF - 1); memory = $NF }
        !($1 in best) || time < best[$1] { best[$1] = time }
        !($1 in most) || memory > most[$1] { most[$1] = memory }
        $1 == "of" { if (!least || $2 < least) least = $2; told = $3 " held, " $4 " reached, " $5 " problems" }
        END {
            printf "reach %.2f s (%s); a start and reach %.2f s, a start alone %.2f s\n", least / 1e6, told, best["of"], best["start"]
            printf "a start and reach %.1f MB at most, a start alone %.1f MB\n", most["of"] / 1024, most["start"] / 1024
        }' "$scratch/lines"
    echo 'where a start and reach spend their time'
    shares of "$scratch/cache"
}

# ---- an import

# Each import is into a folder that has the index alone.
imported() {
    rm -rf "$scratch/copy"
    cp -r "$scratch/index" "$scratch/copy"
    "$program" import "$scratch/copy" "$scratch/found" > "$scratch/line"
    [ "$(tail -n 1 "$scratch/line")" = 'kept 1 big' ] || { cat "$scratch/line"; exit 1; }
    head -n 1 "$scratch/line"
    rm -rf "$scratch/copy"
}

# timed NAME COMMAND..: its name and the microseconds that it took
timed() {
    local begun name=$1
    begun=$(date +%s%N)
    shift
    "$@" > /dev/null 2>&1
    echo "$name $(( ($(date +%s%N) - begun) / 1000 ))"
}

measure_import() {
    echo "load of the machine: $(cut -d ' ' -f 1-3 /proc/loadavg)"
    for _ in 1 2 3; do
        imported
        timed hash sha256sum "$scratch/found/big"
        timed copy dd if="$scratch/found/big" of="$scratch/copy" bs=64k conv=fsync
        rm "$scratch/copy"
    done > "$scratch/lines"
    awk '!($1 in best) || $2 < best[$1] { best[$1] = $2 }
        END {
            printf "import of 1 GB %.2f s, %.0f MB/s; sha256sum %.2f s, %.0f MB/s; ", best["import"] / 1e6, 1e9 / best["import"],
                best["hash"] / 1e6, 1e9 / best["hash"]
            printf "dd with a sync %.2f s: the import has %.2f of the rate of sha256sum\n", best["copy"] / 1e6,
                best["hash"] / best["import"]
        }' "$scratch/lines"
    cp -r "$scratch/index" "$scratch/copy"
    echo 'where an import of 1 GB spends its time'
    shares import "$scratch/copy" "$scratch/found"
}

# A large folder; and an index that names a file of 1 GB, with the folder where that file was found.
python3 "$root/bench/reach/folder.py" "$scratch/cache"
mkdir "$scratch/found" "$scratch/index"
head -c 1000000000 /dev/urandom > "$scratch/found/big"
hash=$(sha256sum < "$scratch/found/big" | cut -c 1-64)
printf 'Origin: Example\nSHA256:\n %s 1000000000 pool/big.deb\n' "$hash" > "$scratch/index/b-0000000000000000"
printf 'acng-head 1\npath mirror.example.org/flat/Release\norigin fetched 0 0\nsize %s\nchecked 1000\nend\n' \
    "$(stat -c %s "$scratch/index/b-0000000000000000")" > "$scratch/index/h-0000000000000000"
sync
"$program" start "$scratch/cache" > /dev/null

export scratch program
export -f shares runs measure_reach imported timed measure_import
${QUIET:-} bash -euc 'measure_reach; measure_import'
