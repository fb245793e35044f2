#!/usr/bin/env bash
# Makes the Debian package, and looks at it: two builds have the same bytes; the program in it runs with the configuration in it,
# which has every key at its default; the man pages, the unit and, where lintian is there, the package have no error. Then dpkg
# installs it into a root of its own, upgrades, removes and purges it there.
set -u
cd "$(dirname "$0")/.." || exit 1
check=package
. tests/common.sh
need dpkg-deb python3 gzip
build
version=$(sed -n '1s/^acng (\([^)]*\)).*/\1/p' packaging/changelog)
name=acng_${version}_amd64.deb
deb=$work/first/$name

# holds NAME COMMAND..: the command has status 0 and says nothing
holds() {
    local name=$1 status
    shift
    "$@" > "$work/said" 2>&1
    status=$?
    said "$name" "$([ "$status" = 0 ] && [ ! -s "$work/said" ] && echo 0 || echo 1)" \
        "status $status; $(head -n 5 "$work/said" | tr '\n' ';')"
}

# ---- the package

(umask 077 && TZ=Asia/Tokyo bash packaging/build.sh "$work/first" > "$work/said" 2>&1)
[ -f "$deb" ] || { echo "$check: not built: $(cat "$work/said")"; exit 1; }
bash packaging/build.sh "$work/second" > /dev/null 2>&1
holds 'two builds have the same bytes' cmp "$deb" "$work/second/$name"

fields="$(dpkg-deb -f "$deb" Package) $(dpkg-deb -f "$deb" Version) $(dpkg-deb -f "$deb" Architecture)"
said 'name, version, architecture' "$([ "$fields" = "acng $version amd64" ] && echo 0 || echo 1)" "$fields"
owners=$(dpkg-deb -c "$deb" | awk '{ print $2 }' | sort -u)
said 'every file is of root' "$([ "$owners" = root/root ] && echo 0 || echo 1)" "$owners"
modes=$(dpkg-deb -c "$deb" | awk '$1 !~ /^(drwxr-xr-x|-rw-r--r--)$/ { print $1, $6 }')
wanted='-rwxr-xr-x ./usr/lib/acng/expire
-rwxr-xr-x ./usr/sbin/acng'
said 'the program and the nightly run alone are executable' "$([ "$modes" = "$wanted" ] && echo 0 || echo 1)" "$modes"

root=$work/root
dpkg-deb -R "$deb" "$root"
conf=$root/etc/acng/acng.conf
holds 'what is under /etc is a conffile' diff <(cd "$root" && find etc -type f -printf '/%p\n' | sort) "$root/DEBIAN/conffiles"
holds 'the sums are those of the files' bash -c "cd '$root' && md5sum --quiet -c DEBIAN/md5sums"

# ---- the program with its configuration

"$root/usr/sbin/acng" check-conf --conf "$conf" > "$work/printed" 2>&1
said 'check-conf' "$([ "$?" = 0 ] && [ "$(cat "$work/printed")" = 'ok groups 2 warnings 0' ] && echo 0 || echo 1)" \
    "$(head -n 3 "$work/printed")"
# The table of keys: each key stands in the configuration with its default, or commented out where that is nothing.
sed -n '/^## The keys/,/^## /s/^| `\([A-Za-z]*\)` | .* | \(.*\) |$/\1 \2/p' docs/CONFIGURATION.md | tr -d '`' > "$work/keys"
said 'the table has keys' "$([ "$(wc -l < "$work/keys")" -ge 11 ] && echo 0 || echo 1)" "$(wc -l < "$work/keys")"
while read -r key default; do
    if [ "$default" = none ]; then line="# $key: ."; else line="$key: ${default%%,*}\$"; fi
    said "the key $key" "$(grep -q "^$line" "$conf" && echo 0 || echo 1)" "no line $line"
done < "$work/keys"
printf 'hello from the mirror\n' > "$work/body"
start_mirror
printf 'GET http://%s/whole/pool/main/a/a_1_all.deb HTTP/1.1\r\n\r\n' "$host" |
    timeout 60 "$root/usr/sbin/acng" once --conf "$conf" --cache "$root/var/cache/acng" > "$work/reply" 2>&1
status=$?
{ file_head 'Content-Length: 22\r\n' && cat "$work/body"; } > "$work/wanted"
compare 'a request by the installed configuration' "$status" 0 "$work/reply" "$work/wanted"

# ---- the nightly run

# A server that may is asked, and `acng expire` isn't run; with none at the port it is.
night=$work/night
mkdir -p "$night/conf"
port=$(python3 -c 'import socket; s = socket.socket(); s.bind(("127.0.0.1", 0)); print(s.getsockname()[1])')
sed -e "s/^Port:.*/Port: $port/" -e 's/^BindAddress:.*/BindAddress: 127.0.0.1/' -e 's/^MaintOverHttp:.*/MaintOverHttp: 1/' "$conf" \
    > "$night/conf/acng.conf"
# by_night PROGRAM LINE STATUS NAME: what a run by night prints, and its status
by_night() {
    ACNG=$1 timeout 60 bash "$root/usr/lib/acng/expire" run "$night/conf/acng.conf" "$night/cache" > "$work/printed" 2>&1
    status=$?
    said "$4" "$([ "$status" = "$3" ] && [ "$(cat "$work/printed")" = "$2" ] && echo 0 || echo 1)" \
        "status $status; $(head -n 3 "$work/printed")"
}
"$root/usr/sbin/acng" serve --conf "$night/conf/acng.conf" --cache "$night/cache" &
server=$!
for _ in $(seq 100); do
    (exec 4<> "/dev/tcp/127.0.0.1/$port") 2> /dev/null && break
    sleep 0.1
done
by_night /bin/false 'done removed 0 marked 0' 0 'a run by night through the server'
kill "$server"
wait "$server" 2> /dev/null
by_night "$root/usr/sbin/acng" 'done removed 0 marked 0' 0 'a run by night without a server'
# What finds proxies by itself looks for them at 3142.
if ! command -v auto-apt-proxy > /dev/null; then
    echo "$check: auto-apt-proxy: skipped, it isn't there"
elif (exec 4<> /dev/tcp/127.0.0.1/3142) 2> /dev/null; then
    echo "$check: auto-apt-proxy: skipped, something else is at the port 3142"
else
    sed -i 's/^Port:.*/Port: 3142/' "$night/conf/acng.conf"
    "$root/usr/sbin/acng" serve --conf "$night/conf/acng.conf" --cache "$night/cache" &
    server=$!
    sleep 1
    found=$(timeout 30 auto-apt-proxy)
    said 'auto-apt-proxy finds the server' "$([ "$found" = http://127.0.0.1:3142 ] && echo 0 || echo 1)" "$found"
    kill "$server"
    wait "$server" 2> /dev/null
fi
sed -i 's/^Port:.*/Port: 70000/' "$night/conf/acng.conf"
line=$(grep -n '^Port:' "$night/conf/acng.conf" | cut -d : -f 1)
by_night "$root/usr/sbin/acng" "line $line: BadNumber" 3 'a run by night with a refused configuration'

# ---- man pages, the unit, lintian

for page in acng.8 acng.conf.5; do
    file=$root/usr/share/man/man${page##*.}/$page.gz
    if command -v groff > /dev/null; then holds "$page by groff" bash -c "zcat '$file' | groff -man -Kutf8 -ww -z"; fi
    if command -v man > /dev/null; then holds "$page by man" bash -c "man --warnings -E UTF-8 -l -Tutf8 -Z '$file' > /dev/null"; fi
    if command -v lexgrog > /dev/null; then
        said "$page has a name" "$(lexgrog "$file" > "$work/said" 2>&1 && echo 0 || echo 1)" "$(cat "$work/said")"
    fi
done
if command -v systemd-analyze > /dev/null; then
    mkdir "$work/units"
    cp "$root"/usr/lib/systemd/system/* "$work/units"
    sed -i -e "s|/usr/sbin/acng|$root/usr/sbin/acng|" -e "s|/usr/lib/acng|$root/usr/lib/acng|" "$work"/units/*.service
    holds 'the units by systemd-analyze' systemd-analyze verify --man=no "$work"/units/*
else
    echo "$check: the units: skipped, there is no systemd-analyze"
fi
if command -v lintian > /dev/null; then
    lintian --fail-on error "$deb" > "$work/said" 2>&1
    said 'lintian' "$?" "$(grep '^E:' "$work/said" | head -n 5 | tr '\n' ';')"
else
    echo "$check: lintian: skipped, it isn't there"
fi
for script in postinst prerm postrm; do holds "$script is a script of sh" sh -n "$root/DEBIAN/$script"; done

# ---- installed, upgraded, removed, purged in a root of its own

export PATH=$PATH:/usr/sbin:/sbin
as_root=
[ "$(id -u)" = 0 ] || as_root=fakeroot
for tool in dpkg useradd $as_root; do
    command -v "$tool" > /dev/null || { echo "$check: installing: skipped, there is no $tool"; exit "$failed"; }
done
host_root=$work/host
mkdir -p "$host_root"/{etc,var/cache,usr/sbin,usr/share,usr/lib} "$host_root"/var/lib/dpkg/{info,updates,triggers}
: > "$host_root/var/lib/dpkg/status"
for file in passwd group shadow gshadow; do : > "$host_root/etc/$file"; done
# The scripts run outside of that root, and get its name in DPKG_ROOT.
package() {
    $as_root dpkg --root="$host_root" --force-script-chrootless --force-depends --force-not-root --force-confold --log=/dev/null "$@" \
        > "$work/dpkg" 2>&1 < /dev/null
}
# What lies in that root, without what dpkg keeps and the accounts' files.
left() { (cd "$host_root" && find . -path ./var/lib -prune -o -type f ! -path './etc/*-' -print | sort); }
left > "$work/before"
# step NAME WORDS..: dpkg does it
step() {
    local name=$1
    shift
    package "$@"
    said "dpkg: $name" "$?" "$(tail -n 5 "$work/dpkg" | tr '\n' ';')"
}
there() { for file; do [ -e "$host_root/$file" ] || echo "$file isn't there"; done; }

step 'install' --install "$deb"
holds 'what it brings' there etc/acng/acng.conf usr/sbin/acng usr/lib/systemd/system/acng.service var/cache/acng
account=$(grep -c '^_acng:.*:/var/cache/acng:/usr/sbin/nologin$' "$host_root/etc/passwd")
said 'one account, which cannot log in' "$([ "$account" = 1 ] && echo 0 || echo 1)" "$(cat "$host_root/etc/passwd")"
if [ -z "$as_root" ]; then
    owner=$(stat -c %u "$host_root/var/cache/acng")
    said 'the cache folder is of that account' "$(grep -q "^_acng:[^:]*:$owner:" "$host_root/etc/passwd" && echo 0 || echo 1)" "$owner"
fi
enabled=$(cd "$host_root/etc/systemd/system" && echo */*)
wanted='multi-user.target.wants/acng.service timers.target.wants/acng-expire.timer'
said 'the service and the timer are enabled' "$([ "$enabled" = "$wanted" ] && echo 0 || echo 1)" "$enabled"
echo '# by the administrator' >> "$host_root/etc/acng/acng.conf"
echo cached > "$host_root/var/cache/acng/b-0000000000000000"
step 'install again' --install "$deb"
holds 'a change by the administrator stays' grep -q 'by the administrator' "$host_root/etc/acng/acng.conf"
step 'remove' --remove acng
holds 'configuration and cache stay' there etc/acng/acng.conf var/cache/acng/b-0000000000000000
said 'the program is gone' "$([ ! -e "$host_root/usr/sbin/acng" ] && echo 0 || echo 1)" 'it is there'
step 'purge' --purge acng
left > "$work/after"
holds 'after a purge no file is left' diff "$work/before" "$work/after"
folders=$(cd "$host_root" && find etc/acng var/cache/acng etc/systemd/system/*/* -maxdepth 0 2> /dev/null | tr '\n' ' ')
said 'and no folder of its own' "$([ -z "$folders" ] && echo 0 || echo 1)" "$folders"
exit "$failed"
