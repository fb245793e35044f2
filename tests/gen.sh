#!/usr/bin/env bash
# Runs the built program's `gen`. The wanted line is reckoned here from the number: the packages that the index names, a third as
# many, rounded up, that nothing names, the index, and its list. No file is read or written, so the folder stays empty.
set -u
cd "$(dirname "$0")/.." || exit 1
check=gen
. tests/common.sh
[ -x "$program" ] || skip "the program isn't built"
mkdir "$work/empty"

# expect SECONDS STATUS TEXT WORD..: the program's status and output, within so many seconds
expect() {
    local seconds=$1 status=$2 text=$3 bad=0
    shift 3
    printf '%b' "$text" > "$work/wanted"
    (cd "$work/empty" && timeout "$seconds" "$program" "$@" < /dev/null > "$work/printed" 2> "$work/error")
    local got=$?
    { [ "$got" = "$status" ] && cmp -s "$work/printed" "$work/wanted" && [ ! -s "$work/error" ]; } || bad=1
    [ -z "$(ls -A "$work/empty")" ] || bad=1
    said "$*" "$bad" "status $got, wanted $status, or other bytes, or a file: $(head -c 200 "$work/printed")"
}
# line N: the line of `gen N`
line() {
    local others=$((($1 + 2) / 3))
    echo "gen $1: rows $(($1 + others + 2)), marked $others, removed $others, left $(($1 + 2))\n"
}
for n in $(seq 20) 300; do expect 30 0 "$(line "$n")" gen "$n"; done
expect 60 0 "$(line 20000)" gen 20000
# The line of ten once more, written out, and in the face of a configuration that is refused.
expect 30 0 'gen 10: rows 16, marked 4, removed 4, left 12\n' gen 10
printf 'Port: 70000\n' > "$work/refused.conf"
expect 30 0 "$(line 10)" gen 10 --conf "$work/refused.conf" --cache "$work/nowhere"
[ -e "$work/nowhere" ] && said 'no cache folder' 1 'there is one'

expect 30 2 'words: NotRead\n' gen 0
expect 30 2 'words: NotRead\n' gen 20001
expect 30 2 'words: NotRead\n' gen -1
expect 30 2 'words: NotRead\n' gen ten
expect 30 2 'words: NoNumber\n' gen
expect 30 2 'words: StrayNumber\n' expire 3
# A full output is all that can fail.
if [ -c /dev/full ]; then
    (cd "$work/empty" && timeout 30 "$program" gen 10 < /dev/null > /dev/full 2> /dev/null)
    got=$?
    bad=0
    [ "$got" = 4 ] || bad=1
    said 'gen 10 with a full output' "$bad" "status $got, wanted 4"
fi
exit $failed
