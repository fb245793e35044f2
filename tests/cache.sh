#!/usr/bin/env bash
# Runs the built program over a cache folder: what it keeps, when it asks the mirror again, and what it says and leaves where
# the mirror, the disk, another program or a kill comes between. The mirror's log tells what it was asked.
set -u
cd "$(dirname "$0")/.." || exit 1
check=cache
. tests/common.sh
need python3
build
head -c 300000 /dev/urandom > "$work/body"
start_mirror
mkdir "$work/conf"
printf 'FreshIndexMaxAge: 6\n' > "$work/conf/acng.conf"
# What `ask` runs over, and as whom; a call may set others for itself.
as=()
conf=$work/conf/acng.conf
cache=$work/cache

# ask REQUEST [WORD..]: runs `once` over the folder; the reply is the file `reply`, the status the one of the call
ask() {
    local request=$1
    shift
    printf '%b\r\n\r\n' "$request" | timeout 50 "${as[@]}" "$program" once --conf "$conf" --cache "$cache" "$@" > "$work/reply" 2> "$work/said"
}
get() { printf 'GET http://%s/%s HTTP/1.1' "$host" "$1"; }
# asked: how many requests the mirror had so far
asked() { wc -l < "$work/log"; }
# expect NAME STATUS COUNT REQUEST [WORD..]: the status, the reply in the file `wanted`, and how often the mirror is asked for it
expect() {
    local name=$1 status=$2 count=$3 before bad=0 got
    shift 3
    before=$(asked)
    ask "$@"
    got=$?
    { [ "$got" = "$status" ] && cmp -s "$work/reply" "$work/wanted" && [ $(($(asked) - before)) = "$count" ] && [ ! -s "$work/said" ]; } || bad=1
    said "$name" "$bad" "status $got, wanted $status; $(($(asked) - before)) requests, wanted $count; or other bytes"
}

# Another program has a folder for longer than this one waits; compared at the end.
mkdir "$work/taken"
python3 -c 'import fcntl, os, sys, time
fcntl.flock(os.open(sys.argv[1], os.O_RDONLY), fcntl.LOCK_EX)
print("locked", flush=True)
time.sleep(float(sys.argv[2]))' "$work/taken" 45 > "$work/taken.said" &
taker=$!
while [ ! -s "$work/taken.said" ]; do sleep 0.1; done
(begun=$(date +%s)
    printf '%b\r\n\r\n' "$(get whole/a.deb)" | timeout 60 "$program" once --cache "$work/taken" > "$work/taken.reply"
    echo "$? $(($(date +%s) - begun))" > "$work/taken.status") &
waiter=$!

# ---- a package: fetched once

deb='Content-Length: 300000\r\n'
{ file_head "$deb"; cat "$work/body"; } > "$work/wanted"
expect 'a miss' 0 1 "$(get whole/a_1_all.deb)"
expect 'a hit' 0 0 "$(get whole/a_1_all.deb)"
expect 'a hit by another form of the target' 0 0 "GET /$host/whole//a_1_all.deb HTTP/1.0"
file_head "$deb" > "$work/wanted"
expect 'HEAD of a hit' 0 0 "HEAD /$host/whole/a_1_all.deb HTTP/1.1"
{ head_of '206 Partial Content' application/octet-stream 'Content-Length: 1\r\nContent-Range: bytes 299999-299999/300000\r\n'; tail -c 1 "$work/body"; } > "$work/wanted"
expect 'the last byte of a hit' 0 0 "$(get whole/a_1_all.deb)\r\nRange: bytes=299999-"
file_head 'Content-Length: 0\r\n' > "$work/wanted"
expect 'an empty file, a miss' 0 1 "$(get empty/a.deb)"
expect 'an empty file, a hit' 0 0 "$(get empty/a.deb)"
# What came in chunks has a length once it is held.
{ file_head 'Transfer-Encoding: chunked\r\n'; printf '3\r\nabc\r\n0\r\n\r\n'; } > "$work/wanted"
expect 'chunks, a miss' 0 1 "$(get chunks/a.deb)"
{ file_head 'Content-Length: 3\r\n'; printf abc; } > "$work/wanted"
expect 'chunks, a hit' 0 0 "$(get chunks/a.deb)"

# ---- an index: asked for again once it is old, with its date

{ file_head 'Content-Length: 3\r\nLast-Modified: Thu, 01 Jan 1970 00:16:40 GMT\r\nETag: "x"\r\n'; printf abc; } > "$work/wanted"
expect 'an index, a miss' 0 1 "$(get dated/InRelease)"
expect 'an index that is fresh' 0 0 "$(get dated/InRelease)"
sleep 7.1
expect 'an index that is old' 0 1 "$(get dated/InRelease)"
expect 'an index that was checked again' 0 0 "$(get dated/InRelease)"
grep -q '^GET /dated/InRelease 304 date$' "$work/log"
said 'an old index is asked for with its date' $? "$(tail -2 "$work/log")"
sleep 7.1
printf 'Offlinemode: 1\n' > "$work/conf/acng.conf"
expect 'an index of any age, offline' 0 0 "$(get dated/InRelease)"
line_of '503 Service Unavailable' '503 Offline' > "$work/wanted"
expect 'a file that is not held, offline' 1 0 "$(get whole/other.deb)"
printf 'FreshIndexMaxAge: 27\n' > "$work/conf/acng.conf"

# ---- what isn't whole isn't kept

line_of '502 Bad Gateway' '502 Early' > "$work/wanted"
expect 'a mirror that breaks off' 1 1 "$(get cut/a.deb)"
expect 'a mirror that breaks off again' 1 1 "$(get cut/a.deb)"
line_of '404 Not Found' '404 Gone' > "$work/wanted"
expect 'a file that is gone' 1 1 "$(get gone/a.deb)"
expect 'a file that is gone again' 1 1 "$(get gone/a.deb)"

# ---- the disk

# No file of more than 100 KiB can be written: a download fails, and what is held is served.
line_of '500 Internal Server Error' '500 Keeper' > "$work/wanted"
(trap '' XFSZ; ulimit -f 100; expect 'a full disk' 5 1 "$(get whole/full.deb)"; exit $failed) || failed=1
{ file_head "$deb"; cat "$work/body"; } > "$work/wanted"
(trap '' XFSZ; ulimit -f 100
    printf '%b\r\n\r\n' "$(get whole/a_1_all.deb)" | "$program" once --cache "$cache" | cmp -s - "$work/wanted")
said 'a hit on a full disk' $? 'other bytes'
expect 'the same file once there is room' 0 1 "$(get whole/full.deb)"
: > "$work/wanted"
: > "$work/file"
cache=$work/file/cache expect 'a folder that cannot be made' 5 0 "$(get whole/a.deb)"
# Root may write everywhere, so it becomes nobody for this.
mkdir -m 555 "$work/closed"
nobody=(setpriv --reuid 65534 --regid 65534 --clear-groups)
[ "$(id -u)" != 0 ] || { chmod 711 "$work"; as=("${nobody[@]}"); }
if "${as[@]}" test -x "$program" 2> /dev/null; then
    line_of '500 Internal Server Error' '500 Keeper' > "$work/wanted"
    cache=$work/closed expect 'a folder that cannot be written' 5 0 "$(get whole/a.deb)"
    : > "$work/wanted"
else
    echo "$check: a folder that cannot be written: skipped, root may write everywhere"
fi
as=()

# ---- statuses before a request is read

printf 'words: StrayNumber\n' > "$work/wanted"
expect 'words that are refused' 2 0 "$(get whole/a.deb)" 3
: > "$work/wanted"
conf=$work/nowhere expect 'a configuration that is not there' 4 0 "$(get whole/a.deb)"
printf 'Port: 70000\n' > "$work/conf/refused.conf"
conf=$work/conf/refused.conf expect 'a configuration that is refused' 3 0 "$(get whole/a.deb)"
conf=$work/conf/refused.conf cache=$work/file/cache expect 'a refused configuration and no folder' 3 0 "$(get whole/a.deb)"
expect 'a head that ends early' 7 0 'GET /\c'
if [ -c /dev/full ]; then
    printf '%b\r\n\r\n' "$(get whole/a_1_all.deb)" | "$program" once --cache "$cache" > /dev/full
    [ $? = 4 ]
    said 'a client that takes nothing' $? 'another status'
fi

# ---- memory

# With as little memory as a hit takes, a configuration of 4 MB is too much: status 6, and nothing is written.
mkdir "$work/long"
for _ in $(seq 1000); do printf '#%4000s\n' ''; done > "$work/long/acng.conf"
printf '%b\r\n\r\n' "$(get whole/a_1_all.deb)" > "$work/request"
{ file_head "$deb"; cat "$work/body"; } > "$work/wanted"
# run_within KIB CONF: the status over the folder, by the configuration, with so much memory
run_within() {
    (ulimit -v "$1"; exec "$program" once --conf "$2" --cache "$cache" < "$work/request" > "$work/reply" 2> "$work/said")
}
bad=1
for within in $(seq 4000 1000 60000); do
    run_within "$within" "$conf" && cmp -s "$work/reply" "$work/wanted" && { bad=0; break; }
done 2> /dev/null
said 'a hit with little memory' "$bad" 'no limit is enough'
run_within "$within" "$work/long/acng.conf"
{ [ $? = 6 ] && [ ! -s "$work/reply" ] && [ ! -s "$work/said" ]; }
said 'a configuration that is too long for it' $? 'another status, or something was written'
run_within 60000 "$work/long/acng.conf" && cmp -s "$work/reply" "$work/wanted"
said 'the same configuration with more memory' $? 'another status or other bytes'

# ---- another program

mkdir "$work/shared"
python3 -c 'import fcntl, os, sys, time
fcntl.flock(os.open(sys.argv[1], os.O_RDONLY), fcntl.LOCK_EX)
print("locked", flush=True)
time.sleep(2)' "$work/shared" > "$work/shared.said" &
while [ ! -s "$work/shared.said" ]; do sleep 0.1; done
{ file_head "$deb"; cat "$work/body"; } > "$work/wanted"
cache=$work/shared expect 'a folder that another program has for two seconds' 0 1 "$(get whole/a.deb)"

# Eight at a time, as a super-server may start them: each gets its file, and one after another asks.
before=$(asked)
many=()
for i in 1 2 3 4 5 6 7 8; do
    (printf '%b\r\n\r\n' "$(get whole/at_once.deb)" | "$program" once --cache "$cache" | cmp -s - "$work/wanted") &
    many+=($!)
done
bad=0
for one in "${many[@]}"; do wait "$one" || bad=1; done
[ $(($(asked) - before)) = 1 ] || bad=1
said 'eight programs at a time' "$bad" "$(($(asked) - before)) requests, wanted 1, or other bytes"

# ---- a kill in the middle

# wanted_of NAME: the reply of a file of the mirror's that is made of its path
wanted_of() {
    local digest
    digest=$(printf '/named/%s' "$1" | sha256sum | cut -d ' ' -f 1)
    file_head 'Content-Length: 200000\r\n'
    for _ in $(seq 3125); do printf '%s' "$digest"; done
}
bad=0
for i in $(seq 20); do
    printf '%b\r\n\r\n' "$(get "named/$i.deb")" | "$program" once --cache "$cache" > "$work/front" 2> /dev/null &
    victim=$!
    sleep "$(printf '0.%03d' $((i * 30)))"
    kill -9 "$victim" 2> /dev/null
    wait "$victim" 2> /dev/null
    wanted_of "$i.deb" > "$work/wanted"
    cmp -s -n "$(wc -c < "$work/front")" "$work/front" "$work/wanted" || { bad=1; echo "$check: killed at $i: wrong bytes"; }
    ask "$(get "named/$i.deb")"
    { [ $? = 0 ] && cmp -s "$work/reply" "$work/wanted"; } || { bad=1; echo "$check: after the kill at $i: wrong bytes or status"; }
done
said 'twenty kills in the middle of a download' "$bad" 'see above'
before=$(asked)
bad=0
for i in $(seq 20); do
    wanted_of "$i.deb" > "$work/wanted"
    ask "$(get "named/$i.deb")"
    { [ $? = 0 ] && cmp -s "$work/reply" "$work/wanted"; } || bad=1
done
[ "$(asked)" = "$before" ] || bad=1
said 'all twenty are held afterwards' "$bad" "$(($(asked) - before)) requests, or other bytes"
left=$(find "$cache" -name 'b-*' | wc -l)
heads=$(find "$cache" -name 'h-*' | wc -l)
[ "$left" = "$heads" ]
said 'no body is left over' $? "$left bodies, $heads heads"

# ---- the folder that another program has kept

wait "$waiter"
kill "$taker" 2> /dev/null
read -r status seconds < "$work/taken.status"
{ [ "$status" = 5 ] && [ "$seconds" -ge 29 ] && [ ! -s "$work/taken.reply" ]; }
said 'a folder that another program keeps for more than half a minute' $? "status $status after $seconds s"
exit $failed
