#!/usr/bin/env bash
# Measures the built program's `serve` on the loopback, beside nginx's proxy_cache over the same mirror where nginx is there:
# hits of 8 KB on 1, 8 and 64 connections that are kept, on a new connection each, and pipelined ten deep; a hit of 100 MB on
# 1 and 16 connections; sixteen cold clients of one slow file; memory, idle and at each measure's peak; a start with 10,000
# files beside `cat` of their heads. Each run takes two seconds, and each measure has three of each server, in turn; the best
# stands. Both servers close a kept connection behind 1,000 requests. Usage: bench/serve.sh [FOLDER]
set -eu
here=$(cd "$(dirname "$0")" && pwd)
program=$here/../crates/acng/out/acng
[ -x "$program" ] || { echo "serve: the program isn't built; make run builds it"; exit 1; }
for tool in curl python3 wrk; do command -v "$tool" > /dev/null || { echo "serve: there is no $tool"; exit 1; }; done
work=$(mktemp -d "${1:-/tmp}/bench-serve.XXXXXX")
mirror='' ours='' theirs=''
trap 'kill $mirror $ours $theirs 2> "$work/killed" || true; wait; rm -rf "$work"' EXIT
load() { cut -d ' ' -f 1-3 /proc/loadavg; }
echo "load of the machine: $(load)"

# ---- a mirror, and the two servers over it

# The program reads the files beside its configuration, so that has a folder of its own.
mkdir "$work/site" "$work/conf" "$work/held_conf"
head -c 8192 /dev/urandom > "$work/site/small.deb"
head -c 8000000 /dev/urandom > "$work/site/slow.deb"
head -c 100000000 /dev/urandom > "$work/site/large.deb"
python3 "$here/serve/mirror.py" "$work/site" > "$work/port" &
mirror=$!
while [ ! -s "$work/port" ]; do sleep 0.1; done

free_port() { python3 -c 'import socket; s = socket.socket(); s.bind(("127.0.0.1", 0)); print(s.getsockname()[1])'; }
wait_for() {
    for _ in $(seq 100); do
        curl -s -o "$work/got" "http://127.0.0.1:$1/m/small.deb" && return
        sleep 0.1
    done
    echo "serve: nothing answers at port $1"
    exit 1
}
our_port=$(free_port)
printf 'BindAddress: 127.0.0.1\nPort: %s\nRemap-m: /m ; http://127.0.0.1:%s\n' "$our_port" "$(cat "$work/port")" > "$work/conf/acng.conf"
"$program" serve --conf "$work/conf/acng.conf" --cache "$work/cache" &
ours=$!
wait_for "$our_port"
servers="acng:$our_port"
if command -v nginx > /dev/null; then
    their_port=$(free_port)
    sed "s,WORK,$work,; s,PORT,$their_port,; s,MIRROR,$(cat "$work/port")," "$here/serve/nginx.conf.txt" > "$work/nginx.conf"
    nginx -p "$work" -c "$work/nginx.conf" 2> "$work/nginx.err" &
    theirs=$!
    wait_for "$their_port"
    servers="$servers nginx:$their_port"
else
    echo "there is no nginx: acng alone"
fi

# pids SERVER: its processes
pids() { if [ "$1" = acng ]; then echo "$ours"; else echo "$theirs $(cat "/proc/$theirs/task/$theirs/children")"; fi; }
# peak SERVER: the greatest memory since `forget SERVER`, in KB, of its processes together
peak() { for pid in $(pids "$1"); do grep VmHWM "/proc/$pid/status"; done | awk '{ sum += $2 } END { print sum }'; }
forget() { for pid in $(pids "$1"); do echo 5 > "/proc/$pid/clear_refs"; done; }
for server in $servers; do echo "idle ${server%:*}: $(peak "${server%:*}") KB"; done
for server in $servers; do
    for file in small large; do
        curl -s -o "$work/got" "http://127.0.0.1:${server#*:}/m/$file.deb"
        cmp "$work/got" "$work/site/$file.deb"
    done
done

# ---- hits

# alternate NAME COMMAND..: three runs of a command for each server, in turn, and a line for each
alternate() {
    local name=$1 server
    shift
    for server in $servers; do forget "${server%:*}"; done
    for _ in 1 2 3; do
        for server in $servers; do
            "$@" "${server#*:}" > "$work/run"
            echo "${server%:*} $(grep '^run' "$work/run")"
        done
    done > "$work/runs"
    for server in $servers; do
        awk -v name="$name" -v server="${server%:*}" -v peak="$(peak "${server%:*}")" '
            $1 == server { count = 1e6 * $3 / $5; bytes = $4 / $5 / 1e3; failed += $6
                if (count > most) most = count; if (bytes > more) more = bytes; if (!least || count < least) least = count }
            END { printf "%-12s %-5s %7.0f requests/s (least %6.0f), %5.2f GB/s, failures %d, peak %d KB\n",
                name, server, most, least, more, failed, peak }' "$work/runs"
    done
}
small() {
    local connections=$1 depth=$2 port=$3 threads=1
    [ "$connections" = 1 ] || threads=2
    wrk -t "$threads" -c "$connections" -d 2 -s "$here/serve/report.lua" -H "Connection: $kept" \
        "http://127.0.0.1:$port/m/small.deb" -- "$depth"
}
large() { python3 "$here/serve/large.py" "$2" /m/large.deb "$1"; }
kept=keep-alive
alternate keep-1 small 1 1
alternate keep-8 small 8 1
alternate keep-64 small 64 1
alternate pipelined-1 small 1 10
alternate pipelined-8 small 8 10
kept=close
alternate new-1 small 1 1
alternate new-8 small 8 1
alternate large-1 large 1
alternate large-16 large 16
echo "load of the machine: $(load)"

# ---- sixteen cold clients

for server in $servers; do
    forget "${server%:*}"
    : > "$work/asked"
    echo "cold ${server%:*}: $(python3 "$here/serve/cold.py" "${server#*:}" /m/slow.deb "$work/site/slow.deb");" \
        "asked $(grep -c slow "$work/asked"), peak $(peak "${server%:*}") KB"
done

# ---- a start with 10,000 files

mkdir "$work/held"
python3 - "$work/site/small.deb" "$work/held" << 'END'
import sys
body = open(sys.argv[1], "rb").read()
for i in range(10000):
    with open("%s/b-%016x" % (sys.argv[2], i), "wb") as out:
        out.write(body)
    with open("%s/h-%016x" % (sys.argv[2], i), "w") as out:
        out.write("acng-head 1\npath h/%d.deb\norigin fetched %d %d\nsize %d\nchecked 1000\nend\n" % (i, i, i, len(body)))
END
port=$(free_port)
printf 'BindAddress: 127.0.0.1\nPort: %s\n' "$port" > "$work/held_conf/acng.conf"
for _ in 1 2 3; do
    python3 "$here/serve/ready.py" "$port" /h/9999.deb "$program" serve --conf "$work/held_conf/acng.conf" --cache "$work/held"
    begun=$(date +%s%N)
    find "$work/held" -name 'h-*' -exec cat {} + > "$work/got"
    echo "cat $(( ($(date +%s%N) - begun) / 1000000 )) 0"
done | awk '!($1 in least) || $2 < least[$1] { least[$1] = $2 } $3 > peak { peak = $3 }
    END { printf "start with 10,000 files: %d ms, peak %d KB; cat of the heads %d ms\n", least["ready"], peak, least["cat"] }'
echo "load of the machine: $(load)"
