#!/usr/bin/env bash
# Watches the system calls that the tests of a cache folder make:
#   a body's file is cut and synced after its last write and before its head gets its name;
#   `seal` after `flush` writes and syncs nothing more;
#   a head is written under another name and renamed, never in place;
#   the folder is synced as it is opened.
# Skipped where strace is missing.
set -u
cd "$(dirname "$0")/../crates/acng_keeper_tests" || exit 1
command -v strace > /dev/null || { echo "folder_syncs: skipped, strace is missing"; exit 0; }
work=$(mktemp -d)
trap 'rm -rf "$work"' EXIT
# The tests as a check left them built, or else as they are tried without a proof.
program=$PWD/out/acng_keeper_tests_tests
if [ -x "$program" ]; then
    mapfile -t names < <("$program" --list | sed -n 's/: test$//p')
    tests=(bash -c 'program=$1; shift; for name; do "$program" "$name" || exit 1; done' run "$program" "${names[@]}")
else
    tests=(rt try --test)
fi
TMPDIR=$work strace -f -qq -y -e trace=openat,pwrite64,ftruncate,fdatasync,fsync,rename,renameat,renameat2 \
    -o "$work/calls" "${tests[@]}" > "$work/log" 2>&1 || { echo "folder_syncs: a test failed"; cat "$work/log"; exit 1; }
grep '/acng-keeper-' "$work/calls" > "$work/trace"

# The path in angle brackets of a call on a handle.
awk '
function path(line) { match(line, /<[^>]*>/); return substr(line, RSTART + 1, RLENGTH - 2) }
function wrong(what, line) { print "folder_syncs: " what ": " line; bad = 1 }
# Calls that failed, and the foreign names that a test makes.
/ = -1 / || /openat.*-foreign\// { next }
/pwrite64\(/ && path($0) ~ /\/b-/ { dirty[path($0)] = 1; cut[path($0)] = 0 }
/pwrite64\(/ && path($0) ~ /\/h-/ { wrong("a head is written in place", $0) }
/openat\(/ && /\/h-/ && /O_WRONLY|O_RDWR|O_TRUNC/ { wrong("a head is opened to be written", $0) }
/ftruncate\(/ { cut[path($0)] = 1 }
/fdatasync\(/ {
    body = path($0)
    if (!cut[body]) wrong("a body is synced and not cut", $0)
    dirty[body] = 0; synced[body]++; syncs++
}
/fsync\(/ { folders++ }
/rename(at2?)?\(/ && /\/draft"/ {
    match($0, /"[^"]*\/h-[0-9a-f]*"/)
    body = substr($0, RSTART + 1, RLENGTH - 2)
    sub(/\/h-/, "/b-", body)
    if (dirty[body] || !synced[body]) wrong("a head gets its name before its body is synced", $0)
    heads++
}
END {
    # This body is flushed twice, with more appended in between, and then sealed.
    for (body in synced) if (body ~ /-keeps\/b-/) {
        flushed++
        if (synced[body] != 2) wrong("a flushed body is synced again, or a flush syncs nothing", body)
    }
    if (!heads || !syncs || !folders || !flushed) wrong("calls are missing", heads " " syncs " " folders " " flushed)
    if (!bad) print "folder_syncs: " syncs " syncs of bodies, " heads " heads named after them: as expected"
    exit bad
}' "$work/trace"
