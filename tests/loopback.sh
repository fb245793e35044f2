#!/usr/bin/env bash
# Runs the built program against a mirror on a free port of the loopback, and compares the bytes of each reply. Each request
# has a cache folder of its own, so each asks the mirror.
# A mirror that leaves its connection open behind an answer is not waited for: each run has 20 seconds. One that stops sending
# in the middle ends after a minute; these runs are begun first and compared last.
set -u
cd "$(dirname "$0")/.." || exit 1
check=loopback
. tests/common.sh
need python3
build
head -c 3000000 /dev/zero | tr '\0' 'x' > "$work/body"
start_mirror

# expect NAME STATUS REQUEST: the program's status, and its reply, which stands in the file `wanted`
conf=
expect() {
    rm -rf "$work/cache"
    printf '%b\r\n\r\n' "$3" | timeout 20 "$program" once --cache "$work/cache" $conf > "$work/reply"
    compare "$1" $? "$2" "$work/reply" "$work/wanted"
}
get() { printf 'GET http://%s/%s/pool/main/a/a_1_all.deb HTTP/1.1' "$host" "$1"; }
old() { printf 'GET /%s/%s/pool/main/a/a_1_all.deb HTTP/1.0' "$host" "$1"; }
bare() { printf 'HEAD /%s/%s/pool/main/a/a_1_all.deb HTTP/1.1' "$host" "$1"; }

# A mirror that stops sending: the proxy gives up after 60 seconds without a byte.
stalls=(stalled stalledhead)
waiting=()
for kind in "${stalls[@]}"; do
    (printf '%b\r\n\r\n' "$(get "$kind")" | timeout 100 "$program" once --cache "$work/$kind" > "$work/$kind.reply"
        echo $? > "$work/$kind.status") &
    waiting+=($!)
done

long='Content-Length: 3000000\r\n'
three='Content-Length: 3\r\n'
chunked='Transfer-Encoding: chunked\r\n'

# Files, by the framings of answer and reply.
{ file_head "$long"; cat "$work/body"; } > "$work/wanted"
expect 'a counted file' 0 "$(get whole)"
expect 'a counted file to HTTP/1.0' 0 "$(old whole)"
expect 'fields beside the request' 0 "$(get whole)\r\nHost: $host\r\nUser-Agent: apt"
expect 'a redirect' 0 "$(get away)"
file_head "$long" > "$work/wanted"
expect 'HEAD of a counted file' 0 "$(bare whole)"
file_head 'Content-Length: 0\r\n' > "$work/wanted"
expect 'an empty file' 0 "$(get empty)"
{ file_head 'Content-Length: 6\r\n'; printf slowly; } > "$work/wanted"
expect 'an answer of single bytes' 0 "$(get slow)"
{ file_head "$three"; printf abc; } > "$work/wanted"
expect '1xx heads before the file' 0 "$(get interim)"
expect 'a connection that stays open' 0 "$(get open)"
{ file_head "$chunked"; printf '3\r\nabc\r\n0\r\n\r\n'; } > "$work/wanted"
expect 'a file in chunks' 0 "$(get chunks)"
expect 'chunks on a connection that stays open' 0 "$(get openchunked)"
{ file_head ''; printf abc; } > "$work/wanted"
expect 'chunks to HTTP/1.0' 0 "$(old chunks)"
{ file_head ''; cat "$work/body"; } > "$work/wanted"
expect 'a large file in chunks, to HTTP/1.0' 0 "$(old chunked)"
expect 'a file to the end, to HTTP/1.0' 0 "$(old toend)"
file_head "$chunked" > "$work/wanted"
expect 'HEAD of a file in chunks' 0 "$(bare chunks)"
expect 'HEAD of a file to the end' 0 "$(bare toend)"

# Parts, dates and tags.
file='Last-Modified: Thu, 01 Jan 1970 00:16:40 GMT\r\nETag: "x"\r\n'
{ file_head "$three$file"; printf abc; } > "$work/wanted"
expect 'the date and the tag of a file' 0 "$(get dated)"
{ head_of '206 Partial Content' application/octet-stream "Content-Length: 2\r\nContent-Range: bytes 1-2/3\r\n$file"; printf bc; } > "$work/wanted"
expect 'a part' 0 "$(get dated)\r\nRange: bytes=1-"
{ head_of '416 Range Not Satisfiable' text/plain 'Content-Length: 11\r\nContent-Range: bytes */3\r\n'; printf '416 NoPart\n'; } > "$work/wanted"
expect 'a part past the end' 0 "$(get dated)\r\nRange: bytes=3-"
printf 'HTTP/1.1 304 Not Modified\r\n%bConnection: close\r\n\r\n' "$file" > "$work/wanted"
expect 'a file that the client has' 0 "$(get dated)\r\nIf-Modified-Since: Thu, 01 Jan 1970 00:16:40 GMT"
{ file_head "${long}ETag: \"t\"\r\n"; cat "$work/body"; } > "$work/wanted"
expect 'a file that breaks off is gone on with by its tag' 0 "$(get tagged)"

# Answers that break off before they are whole.
line_of '502 Bad Gateway' '502 Early' > "$work/wanted"
expect 'a counted file with a byte missing' 1 "$(get cut)"
expect 'chunks without the last' 1 "$(get broken)"
expect 'a head that breaks off' 1 "$(get early)"
expect 'an answer without a byte' 1 "$(get silent)"
line_of '502 Bad Gateway' '502 Bad' > "$work/wanted"
expect 'a size line that is none' 1 "$(get badchunk)"
expect 'a length that is none' 1 "$(get badlength)"
expect 'a head that is none' 1 "$(get badhead)"
line_of '502 Bad Gateway' '502 Origin' > "$work/wanted"
expect 'a port without a mirror' 1 'GET http://localhost:1/a.deb HTTP/1.1'

# Answers that give no file.
line_of '404 Not Found' '404 Gone' > "$work/wanted"
expect '404' 1 "$(get gone)"
expect '404 on a connection that stays open' 1 "$(get opengone)"
expect '410' 1 "$(get lost)"
head_of '404 Not Found' text/plain 'Content-Length: 9\r\n' > "$work/wanted"
expect 'HEAD of what is gone' 1 "$(bare gone)"
line_of '502 Bad Gateway' '502 Status' > "$work/wanted"
for kind in none part error same; do expect "$kind" 1 "$(get "$kind")"; done
line_of '502 Bad Gateway' '502 TlsRedirect' > "$work/wanted"
expect 'a redirect to https' 1 "$(get moved)"
line_of '502 Bad Gateway' '502 Redirects' > "$work/wanted"
expect 'a redirect in a circle' 1 "$(get loop)"

# A group of mirrors: the second is asked where the first hasn't the file, or breaks off.
mkdir "$work/conf"
printf 'Remap-two: /two ; http://%s/gone http://%s/whole\nRemap-cut: /cut ; http://%s/early http://%s/whole\n' "$host" "$host" "$host" "$host" \
    > "$work/conf/acng.conf"
conf="--conf $work/conf/acng.conf"
{ file_head "$long"; cat "$work/body"; } > "$work/wanted"
expect 'a mirror that has no such file, and one that has' 0 'GET /two/pool/main/a/a_1_all.deb HTTP/1.1'
expect 'a mirror that breaks off in its head, and one that does not' 0 'GET /cut/pool/main/a/a_1_all.deb HTTP/1.1'
conf=

# Requests that are refused by name.
line_of '403 Forbidden' '403 Connect' > "$work/wanted"
expect 'CONNECT' 1 "CONNECT $host HTTP/1.1"
line_of '403 Forbidden' '403 Tls' > "$work/wanted"
expect 'an origin over TLS' 1 'GET https://localhost/a.deb HTTP/1.1'
line_of '403 Forbidden' '403 Query' > "$work/wanted"
expect 'a query' 1 "GET http://$host/whole/a.deb?x HTTP/1.1"
line_of '403 Forbidden' '403 BadPath' > "$work/wanted"
expect 'a path upwards' 1 "GET http://$host/../a.deb HTTP/1.1"
line_of '403 Forbidden' '403 BadTarget' > "$work/wanted"
expect 'a port that is none' 1 'GET http://localhost:0/a.deb HTTP/1.1'
line_of '403 Forbidden' '403 Forbidden' > "$work/wanted"
expect 'a file of a class that is not passed on' 1 "GET http://$host/whole/readme HTTP/1.1"

# The report page, and a run of expiration before it, which needs leave.
front='<!DOCTYPE html><html><head><title>acng report</title></head><body><pre>'
table='rows 0 bytes 0'
end='</pre></body></html>'
page_head() { head_of '200 OK' text/html "Content-Length: $1\r\n"; }
{ page_head 108; printf '%s\n' "$front" "$table" "$end"; } > "$work/wanted"
expect 'the report page' 0 'GET /acng-report.html HTTP/1.1'
expect 'the report page, whatever else is asked' 0 'GET /acng-report.html?run=import HTTP/1.1'
page_head 108 > "$work/wanted"
expect 'HEAD of the report page' 0 'HEAD /acng-report.html HTTP/1.1'
line_of '403 Forbidden' '403 Maint' > "$work/wanted"
expect 'a run of expiration without leave' 1 'GET /acng-report.html?run=expire HTTP/1.1'
printf 'MaintOverHttp: 1\n' > "$work/conf/acng.conf"
conf="--conf $work/conf/acng.conf"
{ page_head 132; printf '%s\n' "$front" 'done removed 0 marked 0' "$table" "$end"; } > "$work/wanted"
expect 'a run of expiration' 0 'GET /acng-report.html?run=expire HTTP/1.1'
conf=

line_of '400 Bad Request' '400 BadHead' > "$work/wanted"
expect 'a head with two blanks' 1 'GET  / HTTP/1.1'
line_of '400 Bad Request' '400 HasBody' > "$work/wanted"
expect 'a body' 1 "$(get whole)\r\nContent-Length: 1"
: > "$work/wanted"
expect 'a head that ends early' 7 'GET /\c'

# The mirrors that stopped sending.
wait "${waiting[@]}"
line_of '502 Bad Gateway' '502 Origin' > "$work/wanted"
for kind in "${stalls[@]}"; do
    compare "a mirror that stops sending ($kind)" "$(cat "$work/$kind.status")" 1 "$work/$kind.reply" "$work/wanted"
done
exit $failed
