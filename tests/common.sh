# What the checks of the built program share. A check sets `check` to its own name and sources this from the repository's top.
program=$PWD/crates/acng/out/acng

skip() { echo "$check: skipped, $1"; exit 0; }
need() { for tool; do command -v "$tool" > /dev/null || skip "there is no $tool"; done; }

# The program, built where it isn't.
build() {
    [ -x "$program" ] || (cd crates/acng && rt run -- check-conf < /dev/null > /dev/null 2>&1)
    [ -x "$program" ] || { echo "$check: the program isn't built"; exit 1; }
}

work=$(mktemp -d)
trap 'exec 3>&-; rm -rf "$work"' EXIT

# start_mirror [FOLDER]: a mirror over `$work/body`, and over that folder. Its log is `$work/log`, and `$host` its host and port.
start_mirror() {
    mkfifo "$work/stop"
    : > "$work/log"
    python3 tests/mirror.py "$work/body" "$work/log" "$@" < "$work/stop" > "$work/ready" 2> "$work/error" &
    exec 3> "$work/stop"
    for _ in $(seq 100); do
        [ -s "$work/ready" ] && break
        sleep 0.1
    done
    [ -s "$work/ready" ] || skip "the mirror doesn't start"
    host=localhost:$(cut -d ' ' -f 2 "$work/ready")
}

# ---- the texts of replies

# head_of STATUS TYPE FIELDS: the head of a reply
head_of() { printf 'HTTP/1.1 %s\r\nContent-Type: %s\r\n%bConnection: close\r\n\r\n' "$1" "$2" "$3"; }
file_head() { head_of '200 OK' application/octet-stream "$1"; }
# line_of STATUS LINE: a reply of one line
line_of() { head_of "$1" text/plain "Content-Length: $((${#2} + 1))\r\n"; printf '%s\n' "$2"; }

# ---- what came out

failed=0
# said NAME WHETHER WHAT: whether it was as expected, and else what was seen
said() {
    if [ "$2" = 0 ]; then
        echo "$check: $1: as expected"
    else
        echo "$check: $1: $3"
        failed=1
    fi
}
# compare NAME STATUS WANTED REPLY FILE: the status of the program and its reply, beside the wanted ones
compare() {
    local bad=0
    { [ "$2" = "$3" ] && cmp -s "$4" "$5"; } || bad=1
    said "$1" "$bad" "status $2, wanted $3, or other bytes"
}

# ---- a command over the folder `$cache`, by the configuration `$work/acng.conf`

# ask PATH: has `once` ask for a file of the mirror, and keep it
ask() {
    printf 'GET http://%s/%s HTTP/1.1\r\n\r\n' "$host" "$1" |
        timeout 50 "$program" once --conf "$work/acng.conf" --cache "$cache" > "$work/reply"
}
# fetch PATH: the same of a file that comes
fetch() { ask "$1" || said "fetch $1" 1 "status $?"; }
# prints_file NAME STATUS FILE WORD..: the status of the command that the check is named by, over these words, and that it prints what
# the file has, where nobody is asked and nothing is said beside
prints_file() {
    local name=$1 status=$2 wanted=$3 before bad=0 got
    shift 3
    before=$(wc -l < "$work/log")
    timeout 50 "$program" "$check" "$@" < /dev/null > "$work/printed" 2> "$work/said"
    got=$?
    { [ "$got" = "$status" ] && cmp -s "$work/printed" "$wanted" && [ ! -s "$work/said" ]; } || bad=1
    [ "$(wc -l < "$work/log")" = "$before" ] || bad=1
    said "$name" "$bad" "status $got, wanted $status, or it printed: $(diff "$work/printed" "$wanted" | head -c 400)"
}
# prints NAME STATUS TEXT WORD..: the same of a text
prints() {
    printf '%b' "$3" > "$work/wanted"
    prints_file "$1" "$2" "$work/wanted" "${@:4}"
}

# ---- a server over the folder `$cache`, by the configuration `$work/acng.conf`

# configure_server LINE..: a port of the loopback that is free, `$port`, and these lines
configure_server() {
    port=$(python3 -c 'import socket; s = socket.socket(); s.bind(("127.0.0.1", 0)); print(s.getsockname()[1])')
    printf '%s\n' 'BindAddress: 127.0.0.1' "Port: $port" "$@" > "$work/acng.conf"
}
# start_server [COMMAND..]: the program, run by the command, once it takes connections; `$server` is its process
start_server() {
    "$@" "$program" serve --conf "$work/acng.conf" --cache "$cache" > "$work/said" 2>&1 3>&- &
    server=$!
    for _ in $(seq 100); do
        python3 -c 'import socket, sys; socket.create_connection(("127.0.0.1", int(sys.argv[1])))' "$port" 2> /dev/null && return
        sleep 0.1
    done
    echo "$check: the server doesn't start"
    exit 1
}
