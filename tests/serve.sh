#!/usr/bin/env bash
# Runs the built program as a server on the loopback: many clients at once, of which each gets every byte while the mirror is
# asked once a file; clients and a mirror that stall; a kill in the middle of downloads; another program at the folder, and at
# the address; a full disk; more silent clients than it serves at a time.
set -u
cd "$(dirname "$0")/.." || exit 1
check=serve
. tests/common.sh
need python3
build
head -c 300000 /dev/urandom > "$work/body"
mkdir "$work/tree"
for number in $(seq 10 29); do
    head -c $((number * 9000)) /dev/urandom > "$work/tree/p${number}_1_all.deb"
done
start_mirror "$work/tree"
cache=$work/cache
configure_server
server= crowded=
end() {
    exec 3>&-
    for process in $server $crowded; do
        kill -9 "$process"
        wait "$process" 2> /dev/null
    done
    rm -rf "$work"
}
trap end EXIT

# clients NAME CHECK: what the clients print is what isn't as it should be
clients() {
    timeout 100 python3 tests/clients.py "$port" "$host" "$work/tree" "$2" > "$work/seen" 2>&1
    local status=$?
    said "$1" "$([ "$status" = 0 ] && [ ! -s "$work/seen" ] && echo 0 || echo 1)" "status $status; $(head -n 3 "$work/seen" | tr '\n' ';')"
}
# asked NAME COUNT PATTERN: how many requests of the pattern the mirror had
asked() {
    local count
    count=$(grep -c "$3" "$work/log")
    said "$1" "$([ "$count" = "$2" ] && echo 0 || echo 1)" "$count requests, wanted $2"
}
# refused NAME STATUS WORD..: another program ends with the status, and says nothing
refused() {
    local name=$1 wanted=$2 got
    shift 2
    timeout 20 "$program" "$@" > "$work/other" 2>&1
    got=$?
    said "$name" "$([ "$got" = "$wanted" ] && [ ! -s "$work/other" ] && echo 0 || echo 1)" "status $got, wanted $wanted"
}

# Beside all that follows: a server of its own to which 200 connections say nothing. 64 are served at a time, and each of them is
# given up after 30 s, so another client comes to its turn within two minutes.
configure_server
cache=$work/crowded start_server
crowded=$server
timeout 150 python3 tests/clients.py "$port" "$host" "$work/tree" silent > "$work/silent" 2>&1 &
silent=$!

configure_server
start_server
clients '64 clients for 20 files' crowd
asked 'the mirror is asked once for each' 20 '^GET /tree/'
clients 'the same again' crowd
asked 'and not again for what is held' 20 '^GET /tree/'
clients 'the report page tells of them' page
clients 'requests of one connection, in order' line
clients 'a reply that closes, with more requests behind it' behind
clients 'others are served beside those that stall' stalls
refused 'another server at the folder' 5 serve --conf "$work/acng.conf" --cache "$cache"
refused 'another server at the address' 4 serve --conf "$work/acng.conf" --cache "$work/other.cache"

timeout 100 python3 tests/clients.py "$port" "$host" "$work/tree" loads > /dev/null 2>&1 &
loading=$!
sleep 0.5
kill -9 "$server"
wait "$server" 2> /dev/null
wait "$loading"
echo 'MaintOverHttp: 1' >> "$work/acng.conf"
start_server
clients 'after a kill in the middle of 30 downloads' after
clients 'a run of expiration by many at once' expire
clients 'and what was held before' crowd
asked 'is held still' 20 '^GET /tree/'
said 'the server says nothing' "$([ ! -s "$work/said" ] && echo 0 || echo 1)" "$(head -n 1 "$work/said")"

# No file of more than 100 KiB can be written: downloads fail, what is held is served, and so is what is small.
kill -9 "$server"
wait "$server" 2> /dev/null
start_server bash -c "trap '' XFSZ; ulimit -f 100; exec \"\$@\"" bash
clients 'a full disk' full
said 'the server goes on' "$(kill -0 "$server" 2> /dev/null && echo 0 || echo 1)" 'it ended'

wait "$silent" && [ ! -s "$work/silent" ]
said 'a client behind 200 that say nothing' $? "$(head -n 3 "$work/silent" | tr '\n' ';')"
exit $failed
