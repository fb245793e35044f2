#!/usr/bin/env bash
# Runs the built program against a mirror that faults: 200 drawn scripts of answers that break off, redirect, refuse or go on,
# and 1,000 downloads of a large file that is cut at a random byte. Each reply has to be the file that the model says, whole, or
# the line that says why not; and the mirror has to be asked what the model says, with its ranges and tags.
set -u
cd "$(dirname "$0")/.." || exit 1
check=downloads
. tests/common.sh
need python3
build
timeout 240 python3 -B tests/downloads.py "$program" "$work" 200 1000 > "$work/told" 2> "$work/error"
bad=$?
sed "s/^/$check: /" "$work/told"
said 'downloads over sockets' "$bad" "see above; $(tail -n 1 "$work/error")"
exit $failed
