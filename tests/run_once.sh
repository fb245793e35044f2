#!/usr/bin/env bash
# Builds the proved program and runs its main job twice: a request on standard input, the reply on standard output. The first
# time a mirror is asked; it is started on the loopback where that can be had, else the reply says that the origin can't be
# reached. The second time the mirror is gone, and the reply comes from the cache.
set -u
cd "$(dirname "$0")/.." || exit 1
check=run_once
. tests/common.sh
echo "building the proved program (the first time proves every crate) .." >&2
(cd crates/acng && rt run -- check-conf < /dev/null > /dev/null 2> "$work/build")
if [ ! -x "$program" ]; then
    cat "$work/build" >&2
    exit 1
fi
printf 'hello from the mirror\n' > "$work/body"
host=localhost:1
if command -v python3 > /dev/null; then start_mirror; else exec 3> /dev/null; fi
request="GET http://$host/whole/pool/main/a/a_1_all.deb HTTP/1.1"
ask() {
    echo "--- $1: $request" >&2
    printf '%s\r\n\r\n' "$request" | "$program" once --cache "$work/cache"
    echo "--- status $?" >&2
}
ask 'from the mirror'
exec 3>&-
sleep 0.5
ask 'from the cache'
