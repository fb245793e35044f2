#!/usr/bin/env bash
# Runs the built program's `report` over a cache folder: the table of what `once` has fetched, and what is printed where the
# configuration, the folder or the output fails. The wanted tables are written from the rules.
set -u
cd "$(dirname "$0")/.." || exit 1
check=report
. tests/common.sh
need python3
build
head -c 5000 /dev/urandom > "$work/body"
start_mirror
printf 'PfilePatternEx: extra$\n' > "$work/acng.conf"
printf 'Port: 70000\n' > "$work/refused.conf"
cache=$work/cache


prints 'an empty cache' 0 'rows 0 bytes 0\n' --conf "$work/acng.conf" --cache "$cache"
for path in whole/b.deb dated/InRelease whole/a.extra empty/a.deb chunks/a.deb 'whole/%3Ca&b%3E.deb'; do fetch "$path"; done
ask whole/x.cc
table="$host/chunks/a.deb 3 solid -
$host/dated/InRelease 3 volatile -
$host/empty/a.deb 0 solid -
$host/whole/<a&b>.deb 5000 solid -
$host/whole/a.extra 5000 solid -
$host/whole/b.deb 5000 solid -
rows 6 bytes 15006
"
prints 'what was fetched' 0 "$table" --conf "$work/acng.conf" --cache "$cache"
prints 'the same again' 0 "$table" --conf "$work/acng.conf" --cache "$cache"
# Without its pattern a file is of another class, and still held.
: > "$work/none.conf"
prints 'another configuration' 0 "${table/a.extra 5000 solid/a.extra 5000 forbidden}" --conf "$work/none.conf" --cache "$cache"
# A folder as another run may have left it: a file with a mark, and a head without its body.
mkdir "$work/made"
head_record() { printf 'acng-head 1\npath %s\norigin fetched 0 0\nsize %s\nchecked 5\n%bend\n' "$1" "$2" "$3"; }
printf abc > "$work/made/b-0000000000000001"
head_record h/p.deb 3 'mark 1000\n' > "$work/made/h-0000000000000001"
head_record h/gone.deb 3 '' > "$work/made/h-0000000000000002"
prints 'a mark' 0 'h/p.deb 3 solid 1000\nrows 1 bytes 3\n' --conf "$work/none.conf" --cache "$work/made"

prints 'a configuration that is refused' 3 'line 1: BadNumber\n' --conf "$work/refused.conf" --cache "$cache"
prints "a configuration that isn't there" 4 '' --conf "$work/nowhere.conf" --cache "$cache"
prints 'a stray number' 2 'words: StrayNumber\n' 3
prints 'a folder that is a file' 5 '' --conf "$work/acng.conf" --cache "$work/body"
prints 'that, and a configuration that is refused' 3 'line 1: BadNumber\n' --conf "$work/refused.conf" --cache "$work/body"
if [ -c /dev/full ]; then
    timeout 50 "$program" report --conf "$work/acng.conf" --cache "$cache" < /dev/null > /dev/full 2> "$work/said"
    got=$?
    bad=0
    [ "$got" = 4 ] || bad=1
    said 'a full disk at the output' "$bad" "status $got, wanted 4"
fi
exit $failed
