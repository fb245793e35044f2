#!/usr/bin/env bash
# Measures the built program's `once` over a cache folder: a hit of 100 MB beside `cat` of the same bytes, a miss of 100 MB
# beside `curl -o`, both from one small server on the loopback, and a hit of 8 KB with 10 and with 10,000 files held.
# Five runs of each, in turn; the best stands. Usage: bench/once.sh [FOLDER]
set -eu
program=$(cd "$(dirname "$0")/.." && pwd)/crates/acng/out/acng
[ -x "$program" ] || { echo "once: the program isn't built; make run builds it"; exit 1; }
for tool in curl python3; do command -v "$tool" > /dev/null || { echo "once: there is no $tool"; exit 1; }; done
work=$(mktemp -d "${1:-/tmp}/bench-once.XXXXXX")
server=
trap '[ -z "$server" ] || kill "$server"; rm -rf "$work"' EXIT
echo "load of the machine: $(cut -d ' ' -f 1-3 /proc/loadavg)"

mkdir "$work/site"
head -c 100000000 /dev/urandom > "$work/site/a.deb"
head -c 8192 /dev/urandom > "$work/small"

# A server that gives a file in pieces of 1 MiB, and its port.
python3 - "$work/site" > "$work/port" <<'END' &
import http.server, os, shutil, sys
class Handler(http.server.BaseHTTPRequestHandler):
    def do_GET(self):
        with open(sys.argv[1] + self.path, "rb") as body:
            self.send_response(200)
            self.send_header("Content-Length", str(os.fstat(body.fileno()).st_size))
            self.end_headers()
            shutil.copyfileobj(body, self.wfile, 1 << 20)
    def log_message(self, *words):
        pass
server = http.server.ThreadingHTTPServer(("127.0.0.1", 0), Handler)
print(server.server_port, flush=True)
server.serve_forever()
END
server=$!
while [ ! -s "$work/port" ]; do sleep 0.1; done
url=http://127.0.0.1:$(cat "$work/port")/a.deb
printf 'GET %s HTTP/1.1\r\n\r\n' "$url" > "$work/request"

# taken NAME COMMAND..: the microseconds that a command takes, behind its name
taken() {
    local name=$1 begun
    shift
    begun=$(date +%s%N)
    "$@"
    echo "$name $(( ($(date +%s%N) - begun) / 1000 ))"
}
# best: of each name the least number, in the order in which they came
best() {
    awk '!($1 in least) { order[n++] = $1; least[$1] = $2 } $2 < least[$1] { least[$1] = $2 }
        END { for (i = 0; i < n; i++) print order[i], least[order[i]] }'
}
once() { "$program" once --cache "$1" < "$work/request" > "$2"; }

# A miss: the folder is new each time, and the file is synced; curl's isn't.
for _ in 1 2 3 4 5; do
    rm -rf "$work/cache" "$work/got"
    taken miss once "$work/cache" /dev/null
    taken curl curl -s -o "$work/got" "$url"
    taken curl_sync sh -c 'curl -s -o "$1" "$2" && sync "$1"' sh "$work/got" "$url"
done | best | awk '{ printf "%-10s %.3f s, %.2f GB/s\n", $1, $2 / 1e6, 1e8 / $2 / 1e3 }'

# A hit: each byte is read from the folder and written to a pipe.
piped() { "$@" | wc -c > "$work/count"; }
cat_body() { cat "$work"/cache/b-*; }
hit() { once "$work/cache" /dev/stdout; }
for _ in 1 2 3 4 5; do
    taken hit piped hit
    taken cat piped cat_body
done | best | awk '{ printf "%-10s %.3f s, %.2f GB/s\n", $1, $2 / 1e6, 1e8 / $2 / 1e3 }'

# held N: a folder that holds N files of 8 KB, the first of which is asked for
held() {
    mkdir "$work/held$1"
    python3 - "$work/small" "$work/held$1" "$1" <<'END'
import sys
body = open(sys.argv[1], "rb").read()
for i in range(int(sys.argv[3])):
    with open("%s/b-%016x" % (sys.argv[2], i), "wb") as out:
        out.write(body)
    with open("%s/h-%016x" % (sys.argv[2], i), "w") as out:
        out.write("acng-head 1\npath h/%d.deb\norigin fetched %d %d\nsize %d\nchecked 1000\nend\n" % (i, i, i, len(body)))
END
}
held 10
held 10000
printf 'GET /h/0.deb HTTP/1.1\r\n\r\n' > "$work/request"
for _ in 1 2 3 4 5; do
    taken files_10 once "$work/held10" "$work/reply"
    [ "$(wc -c < "$work/reply")" -gt 8192 ]
    taken files_10000 once "$work/held10000" "$work/reply"
    [ "$(wc -c < "$work/reply")" -gt 8192 ]
done | best | awk '{ printf "%-11s %.1f ms\n", $1, $2 / 1e3 }'
