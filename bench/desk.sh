#!/usr/bin/env bash
# Measures a desk: how long a call for a held path takes among 1,024, 32,768 and 1,048,576 rows in memory, and how long and
# how much memory a start takes over folders of 10,000 and 100,000 held files of no byte. Each start is run ten times, and
# the best stands; the folder's files are in the system's memory by then. A start's time is told beside its processor time,
# which other work on the machine disturbs less. A row's memory is what the larger folder takes beyond the smaller one, by
# row. Where valgrind is there, the instructions of a start are counted too, which no other work disturbs, over 1,000 and
# 10,000 files. Usage: bench/desk.sh [FOLDER]
set -eu
root=$(cd "$(dirname "$0")/.." && pwd)
[ -x /usr/bin/time ] || { echo "desk: there is no /usr/bin/time"; exit 1; }
scratch=$(mktemp -d "${1:-/tmp}/bench-desk.XXXXXX")
trap 'rm -rf "$scratch"' EXIT
. "$root/bench/crate.sh"
for files in 1000 10000 100000; do python3 "$root/bench/desk/folder.py" "$scratch/$files" "$files"; done
bench_crate desk acng_base acng_site acng_conf acng_class acng_keeper acng_head acng_grow acng_rows acng_desk
sed -i 's/^bench_desk: .*/& sha2/' "$scratch/repo/crates.txt"
# What is said of a ticket, and that an empty keeper is faithful, are as in the table of the desk.
mkdir specs
cp "$root/crates/acng_desk_table/specs/"*.antt specs/
cp "$root/crates/acng_desk_table/proofs/Empty.antt" proofs/
echo 'mod Empty' > proofs/Lib.antt
rt run -- begin 2 > "$scratch/log" 2>&1 || { cat "$scratch/log"; exit 1; }
echo "load of the machine: $(cut -d ' ' -f 1-3 /proc/loadavg)"

# Three runs each; the least time of each stands.
for rows in 1024 32768 1048576; do
    for _ in 1 2 3; do out/bench_desk begin "$rows"; done > "$scratch/lines"
    awk -v rows="$rows" '!($1 in least) || $2 < least[$1] { least[$1] = $2 } $1 == "begin" { held = $3 }
        END { printf "%7d rows: a call for a held path %.2f us (%d of 200000 held), an import %.2f us\n",
            rows, least["begin"] / 1000, held, least["put"] / 1000 }' "$scratch/lines"
done

# start FOLDER: how many rows, the least time, the least processor time of its own and in the system, all in
# seconds, and the most memory in kilobytes.
TIMEFORMAT='used %3U %3S'
start() {
    for _ in 1 2 3 4 5 6 7 8 9 10; do
        { time /usr/bin/time -f 'memory %M' -o "$scratch/memory" out/bench_desk start "$1"; } 2>&1
        cat "$scratch/memory"
    done | awk '$1 == "start" { rows = $3; if (!time || $2 < time) time = $2 }
        $1 == "used" { if (!own || $2 < own) own = $2; if (!kernel || $3 < kernel) kernel = $3 }
        $1 == "memory" && $2 > most { most = $2 }
        END { print rows, time / 1e6, own, kernel, most }'
}
{ start "$scratch/10000"; start "$scratch/100000"; } | awk '
    $1 == 0 { print "desk: a start was refused"; failed = 1; exit 1 }
    { rows[NR] = $1; time[NR] = $2; own[NR] = $3; calls[NR] = $4; memory[NR] = $5
        printf "a start over %d files: %.3f s; processor time %.3f s of its own, %.3f s in the system; %.1f MB at most\n",
            $1, $2, $3, $4, $5 / 1024 }
    END {
        if (failed) exit 1
        printf "files %.1f times as many: time %.1f times, its own %.1f, in the system %.1f; a row %.0f bytes\n",
            rows[2] / rows[1], time[2] / time[1], own[2] / own[1], calls[2] / calls[1],
            (memory[2] - memory[1]) * 1024 / (rows[2] - rows[1])
    }'

command -v valgrind > /dev/null || exit 0
for files in 1000 10000; do
    valgrind --tool=callgrind --callgrind-out-file=/dev/null out/bench_desk start "$scratch/$files" > "$scratch/counted" 2>&1
    awk -v files="$files" '/I +refs:/ { gsub(",", "", $NF); printf "%d files: %d instructions a file\n", files, $NF / files }' \
        "$scratch/counted"
done
