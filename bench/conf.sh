#!/usr/bin/env bash
# Measures the built program's `check-conf` over 20,000 merging entries: in the lines themselves, and in one list file.
# The best of five runs each, in seconds.
set -eu
program=$(cd "$(dirname "$0")/.." && pwd)/crates/acng/out/acng
[ -x "$program" ] || { echo "conf: the program isn't built; make run builds it"; exit 1; }
work=$(mktemp -d)
trap 'rm -rf "$work"' EXIT
mkdir "$work/lines" "$work/list"
for group in $(seq 100); do
    printf 'Remap-g%d:' "$group"
    for i in $(seq 200); do printf ' http://m%d-%d.example.org/debian' "$group" "$i"; done
    printf ' ; http://deb.example.org/debian\n'
done > "$work/lines/acng.conf"
printf 'Remap-debrep: file:mirrors ; http://deb.example.org/debian\n' > "$work/list/acng.conf"
for i in $(seq 20000); do printf 'http://m%d.example.org/debian\n' "$i"; done > "$work/list/mirrors"
for folder in lines list; do
    for _ in 1 2 3 4 5; do
        begun=$(date +%s%N)
        "$program" check-conf --conf "$work/$folder/acng.conf" > "$work/printed"
        echo $(( ($(date +%s%N) - begun) / 1000000 ))
    done | sort -n | head -1 | awk -v name="$folder" '{ printf "%s %.3f s: ", name, $1 / 1000 }'
    cat "$work/printed"
done
