#!/usr/bin/env bash
# Measures the built program's `report` over a cache folder of 100,000 files, beside a refused request of `once` over the same
# folder, which starts the same desk and prints nothing of it. The best of three runs each, in seconds.
set -eu
program=$(cd "$(dirname "$0")/.." && pwd)/crates/acng/out/acng
[ -x "$program" ] || { echo "report: the program isn't built; make run builds it"; exit 1; }
work=$(mktemp -d)
trap 'rm -rf "$work"' EXIT
mkdir "$work/cache"
python3 - "$work/cache" 100000 <<'PYTHON'
import sys
folder, count = sys.argv[1], int(sys.argv[2])
for i in range(count):
    path = "debrep/pool/main/%c/package-%d/package-%d_1.0-1_all.deb" % (97 + i % 26, i, i)
    mark = "mark %d\n" % (1700000000 + i) if i % 3 == 0 else ""
    open("%s/b-%016x" % (folder, i), "wb").close()
    with open("%s/h-%016x" % (folder, i), "w") as head:
        head.write("acng-head 1\npath %s\norigin fetched %d %d\nsize 0\nchecked 5\n%send\n" % (path, i, i, mark))
PYTHON
: > "$work/acng.conf"
best() {
    for _ in 1 2 3; do
        begun=$(date +%s%N)
        "$@" > "$work/printed" || true
        echo $(( ($(date +%s%N) - begun) / 1000000 ))
    done | sort -n | head -1
}
refused() { printf 'GET http://h/forbidden HTTP/1.1\r\n\r\n' | "$program" once --conf "$work/acng.conf" --cache "$work/cache"; }
start=$(best refused)
report=$(best "$program" report --conf "$work/acng.conf" --cache "$work/cache")
tail -1 "$work/printed"
awk -v start="$start" -v report="$report" 'BEGIN { printf "start %.2f s, report %.2f s: the table takes %.2f s\n", start / 1000, report / 1000, (report - start) / 1000 }'
