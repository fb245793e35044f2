#!/usr/bin/env bash
# Measures the built program's `expire` over a cache folder of 100,000 files of which four indexes name 60,000, and 39,992 are
# named by none: a run that marks these, one that changes nothing, and one that removes 1,000; and `report` of the same folder.
# Beside each stands a refused request of `once`, which starts the same desk and does nothing with it. Where the system's memory of
# files may be dropped, each run that changes nothing is made without it too; else a line says so. The best of three runs, but of
# one where marks or files change. Usage: bench/expire.sh [FOLDER]
set -eu
root=$(cd "$(dirname "$0")/.." && pwd)
program=$root/crates/acng/out/acng
[ -x "$program" ] || { echo "expire: the program isn't built; make run builds it"; exit 1; }
[ -x /usr/bin/time ] || { echo "expire: there is no /usr/bin/time"; exit 1; }
scratch=$(mktemp -d "${1:-/tmp}/bench-expire.XXXXXX")
trap 'rm -rf "$scratch"' EXIT
python3 "$root/bench/reach/folder.py" "$scratch/cache"
: > "$scratch/acng.conf"
echo "load of the machine: $(cut -d ' ' -f 1-3 /proc/loadavg)"

# run COMMAND: the seconds of a run of it, the processor's seconds of its own and in the system, and its kilobytes
run() {
    printf 'GET http://h/forbidden HTTP/1.1\r\n\r\n' |
        /usr/bin/time -q -f '%e %U %S %M' -o "$scratch/used" "$program" "$1" --conf "$scratch/acng.conf" --cache "$scratch/cache" \
            > "$scratch/printed" || true
    tail -n 1 "$scratch/used"
}
# told NAME RUNS COMMAND WANTED: the best of so many runs, whose last line is this one
told() {
    for _ in $(seq "$2"); do
        [ -z "${cold:-}" ] || drop
        run "$3"
    done | sort -n | head -n 1 > "$scratch/best"
    [ "$(tail -n 1 "$scratch/printed" | tr -d '\r')" = "$4" ] || { echo "expire: $1 printed $(tail -n 1 "$scratch/printed")"; exit 1; }
    awk -v name="$1" '{ printf "%-44s %6.2f s; processor time %.2f s of its own, %.2f s in the system; %.1f MB\n", name, $1, $2, $3, $4 / 1024 }' \
        "$scratch/best"
}
drop() { sync && echo 3 > /proc/sys/vm/drop_caches; }

bytes=$(find "$scratch/cache" -name 'b-*' -printf '%s\n' | awk '{ sum += $1 } END { print sum }')
told 'expire that marks 39,992 files' 1 expire 'done removed 0 marked 39992'
all() {
    told "a start alone$1" 3 once '403 Forbidden'
    told "expire that changes nothing$1" 3 expire 'done removed 0 marked 39992'
    told "report$1" 3 report "rows 100000 bytes $bytes"
}
all ''
if drop 2> /dev/null; then
    cold=yes
    all ', cold'
    cold=
else
    echo 'the memory of files cannot be dropped here: nothing was measured cold'
fi
# As if 1,000 of the files had been unnamed since 1970.
python3 - "$scratch/cache" <<'PYTHON'
import os, sys
marked = 0
for name in sorted(os.listdir(sys.argv[1])):
    if name.startswith("h-") and marked < 1000:
        path = os.path.join(sys.argv[1], name)
        lines = open(path).read().split("\n")
        if lines[-3].startswith("mark "):
            lines[-3] = "mark 1000"
            open(path, "w").write("\n".join(lines))
            marked += 1
PYTHON
told 'expire that removes 1,000 files' 1 expire 'done removed 1000 marked 38992'
