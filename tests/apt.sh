#!/usr/bin/env bash
# apt itself over the cache: a small repository behind a mirror on the loopback. `apt-get update` and `apt-get download` run in
# private roots; apt compares every hash. In a second round, with nothing left in apt's roots, the mirror is asked for nothing but
# files that may change.
# First one root over a super-server that starts one `acng once` for each connection; then apt also goes on with half of a package.
# Then four roots at once over `acng serve`: two by a proxy setting, and two by the mirror's name in the proxy's own URLs.
# Each once with indexes by their hashes and once by their names.
set -u
cd "$(dirname "$0")/.." || exit 1
check=apt
. tests/common.sh
need python3 apt-get apt-cache
build
: > "$work/body"
server=
trap 'exec 3>&-; [ -z "$server" ] || kill "$server" 2> /dev/null; rm -rf "$work"' EXIT

# ---- the repository: 20 packages, a list of them, and a Release; by-hash names where the first argument is `yes`

make_repository() {
    local root=$1 by_hash=$2
    mkdir -p "$root/pool/main" "$root/dists/stable/main/binary-amd64"
    python3 - "$root" "$by_hash" << 'PYTHON'
import hashlib
import os
import sys

root, by_hash = sys.argv[1:]


def digest(bytes):
    return hashlib.sha256(bytes).hexdigest()


stanzas = []
for i in range(20):
    name = "pool/main/koala%02d_1.0_all.deb" % i
    body = os.urandom(10_000 * (i + 1))
    with open(os.path.join(root, name), "wb") as file:
        file.write(body)
    stanzas.append("Package: koala%02d\nVersion: 1.0\nArchitecture: all\nMaintainer: Nobody <nobody@localhost>\n"
                   "Description: a package\nFilename: %s\nSize: %d\nSHA256: %s\n" % (i, name, len(body), digest(body)))
text = "\n".join(stanzas).encode()
folder = os.path.join(root, "dists/stable/main/binary-amd64")
names = ["Packages"]
if by_hash == "yes":
    os.makedirs(os.path.join(folder, "by-hash/SHA256"))
    names = ["by-hash/SHA256/" + digest(text)]
for name in names:
    with open(os.path.join(folder, name), "wb") as file:
        file.write(text)
with open(os.path.join(root, "dists/stable/Release"), "w") as file:
    file.write("Origin: Koala\nSuite: stable\nCodename: stable\nArchitectures: amd64\nComponents: main\n"
               "Date: Tue, 01 Dec 2026 00:00:00 UTC\nAcquire-By-Hash: %s\nSHA256:\n %s %d main/binary-amd64/Packages\n"
               % (by_hash, digest(text), len(text)))
PYTHON
}

# ---- the super-server: one program a connection, one after another

serve_one_by_one() {
    exec python3 - "$program" "$work/acng.conf" "$1" << 'PYTHON'
import socket
import subprocess
import sys

program, conf, cache = sys.argv[1:]
listener = socket.socket()
listener.bind(("127.0.0.1", 0))
listener.listen(64)
print(listener.getsockname()[1], flush=True)
while True:
    connection, _ = listener.accept()
    with connection:
        status = subprocess.call([program, "once", "--conf", conf, "--cache", cache], stdin=connection, stdout=connection)
        if status not in (0, 1, 7):
            print("status %d" % status, file=sys.stderr, flush=True)
PYTHON
}

# ---- apt in a root of its own

# make_root ROOT URL PROXY: a root for the repository at the URL, by the proxy, or by none where that is empty
make_root() {
    local root=$1
    rm -rf "$root"
    mkdir -p "$root/etc/apt/preferences.d" "$root/etc/apt/trusted.gpg.d" "$root/var/lib/apt/lists/partial" \
        "$root/var/cache/apt/archives/partial" "$root/var/lib/dpkg" "$root/downloads"
    : > "$root/var/lib/dpkg/status"
    echo "deb [trusted=yes arch=amd64] $2 stable main" > "$root/etc/apt/sources.list"
    cat > "$root/apt.conf" << CONF
Dir "$root";
Dir::Bin::methods "/usr/lib/apt/methods";
Dir::State::status "$root/var/lib/dpkg/status";
Dir::Etc::main "/dev/null";
Dir::Etc::parts "/dev/null";
Dir::Log "$root";
APT::Architecture "amd64";
APT::Architectures { "amd64"; };
APT::Sandbox::User "";
APT::Update::Error-Mode "any";
Acquire::Languages "none";
Acquire::Retries "0";
Acquire::http::Proxy "${3:-DIRECT}";
CONF
}
# in_root ROOT COMMAND..: apt there
in_root() { env -u http_proxy -u no_proxy -u HTTP_PROXY -u NO_PROXY APT_CONFIG="$1/apt.conf" LC_ALL=C "${@:2}"; }
# fill ROOT REPOSITORY: an update and a download of everything, each package compared
fill() {
    local bad=0
    in_root "$1" apt-get update > "$1/said" 2>&1 || bad=1
    (cd "$1/downloads" && in_root "$1" apt-get download $(seq -f 'koala%02g' 0 19)) >> "$1/said" 2>&1 || bad=1
    for package in "$work/$2/pool/main"/*.deb; do
        cmp -s "$package" "$1/downloads/$(basename "$package")" || bad=1
    done
    return $bad
}
# only_changing NAME BY_HASH: that the mirror was asked for what may change alone. With hashes in the names even lists don't.
only_changing() {
    local volatile='/(InRelease|Release|Release.gpg|Packages) [0-9]+( date)?$'
    [ "$2" = yes ] && volatile='/(InRelease|Release|Release.gpg) [0-9]+( date)?$'
    ! grep -Evq "$volatile" "$work/log" && [ -s "$work/log" ]
    said "$1" $? "$(cat "$work/log")"
}

# ---- one root over `once`

# round NAME REPOSITORY: everything into an empty root
round() {
    make_root "$work/root" "http://$host/tree/$2" "http://127.0.0.1:$proxy"
    # (one program at a time is no match for requests ahead)
    echo 'Acquire::http::Pipeline-Depth "0";' >> "$work/root/apt.conf"
    : > "$work/log"
    fill "$work/root" "$2"
    said "$1" $? "$(cat "$work/root/said")"
}

printf 'FreshIndexMaxAge: 0\n' > "$work/acng.conf"
start_mirror "$work"
for by_hash in yes no; do
    repository=hash_$by_hash
    make_repository "$work/$repository" "$by_hash"
    serve_one_by_one "$work/cache_$by_hash" > "$work/port_$by_hash" 2> "$work/statuses_$by_hash" &
    server=$!
    for _ in $(seq 100); do
        [ -s "$work/port_$by_hash" ] && break
        sleep 0.1
    done
    proxy=$(cat "$work/port_$by_hash")
    round "by hash $by_hash: update and 20 packages" "$repository"
    [ "$(grep -c '\.deb 200$' "$work/log")" = 20 ]
    said "by hash $by_hash: each package is asked for once" $? "$(cat "$work/log")"
    sleep 1.1
    round "by hash $by_hash: the second round" "$repository"
    only_changing "by hash $by_hash: only what may change is asked for again" "$by_hash"
    # apt has half of a package, and goes on with it by a range and the file's date.
    whole=$work/$repository/pool/main/koala19_1.0_all.deb
    archives=$work/root/var/cache/apt/archives
    half=$archives/partial/$(basename "$whole")
    head -c 100000 "$whole" > "$half"
    touch -r "$whole" "$half"
    in_root "$work/root" apt-get -o Debug::Acquire::http=true install -y -d koala19 > "$work/download" 2>&1
    { cmp -s "$whole" "$archives/$(basename "$whole")" && grep -aq '206 Partial Content' "$work/download"; }
    said "by hash $by_hash: a package that broke off is gone on with" $? "$(cat "$work/download")"
    [ ! -s "$work/statuses_$by_hash" ]
    said "by hash $by_hash: no run fails" $? "$(cat "$work/statuses_$by_hash")"
    kill "$server"
done

# ---- four roots at once over `serve`

# fill_four NAME REPOSITORY: everything into four empty roots at once
fill_four() {
    local bad=0 jobs=()
    : > "$work/log"
    for number in 1 2 3 4; do
        if [ $number -le 2 ]; then
            make_root "$work/root$number" "http://$host/tree/$2" "http://127.0.0.1:$port"
        else
            make_root "$work/root$number" "http://127.0.0.1:$port/$host/tree/$2" ''
        fi
        fill "$work/root$number" "$2" &
        jobs+=($!)
    done
    for job in "${jobs[@]}"; do wait "$job" || bad=1; done
    said "$1" "$bad" "$(cat "$work"/root[1-4]/said)"
}

configure_server 'FreshIndexMaxAge: 0'
cache=$work/served
start_server
for by_hash in yes no; do
    repository=hash_$by_hash
    fill_four "four at once, by hash $by_hash" "$repository"
    [ "$(grep -c '\.deb 200$' "$work/log")" = 20 ]
    said "four at once, by hash $by_hash: each package is asked for once" $? "$(cat "$work/log")"
    sleep 1.1
    fill_four "four at once, by hash $by_hash: the second round" "$repository"
    only_changing "four at once, by hash $by_hash: only what may change is asked for again" "$by_hash"
done
kill "$server"
exit $failed
