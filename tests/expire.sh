#!/usr/bin/env bash
# Runs the built program's `expire` over a cache folder: what `once` has fetched with an index and without one, marks of long ago,
# a list that isn't the one that its index names, runs that stop in the middle, 200 files in three runs, and each status. The wanted
# lines and tables are written from the rules.
set -u
cd "$(dirname "$0")/.." || exit 1
check=expire
. tests/common.sh
need python3 sha256sum
build
: > "$work/body"

# A mirror's tree: an index, its list, a file that the list names, and one that it doesn't.
tree=$work/tree list=main/binary-all/Packages
mkdir -p "$tree/dists/s/${list%/*}" "$tree/pool"
printf 'Package: a\nFilename: pool/a_1_all.deb\nSize: 3\nSHA256: %s\n' "$(printf abc | sha256sum | cut -c 1-64)" > "$tree/dists/s/$list"
hash=$(sha256sum < "$tree/dists/s/$list" | cut -c 1-64) size=$(stat -c %s "$tree/dists/s/$list")
printf -- '-----BEGIN PGP SIGNED MESSAGE-----\nHash: SHA256\n\nSHA256:\n %s %s %s\n-----BEGIN PGP SIGNATURE-----\n' \
    "$hash" "$size" "$list" > "$tree/dists/s/InRelease"
printf abc > "$tree/pool/a_1_all.deb"
printf abcd > "$tree/pool/b_1_all.deb"
start_mirror "$tree"
release=$(stat -c %s "$tree/dists/s/InRelease")

: > "$work/acng.conf"
printf 'Port: 70000\n' > "$work/refused.conf"
printf 'ExAbortOnProblems: 0\n' > "$work/never.conf"
printf 'ExAbortOnProblems: 2\n' > "$work/two.conf"
cache=$work/cache

# holds NAME ROW..: the rows of the report, a row being a path, a size and a mark, where `now` is a moment of this check
holds() {
    local name=$1 bad=0 seen
    shift
    printf '%s\n' "$@" > "$work/wanted"
    timeout 50 "$program" report --conf "$work/acng.conf" --cache "$cache" < /dev/null > "$work/table" || bad=1
    seen=$(sed -n '$d; s,^[^/]*/tree/,,p' "$work/table" |
        awk -v from="$began" -v to="$(date +%s)" '{ mark = $4 != "-" && $4 >= from && $4 <= to ? "now" : $4; print $1, $2, mark }')
    [ "$seen" = "$(cat "$work/wanted")" ] || bad=1
    said "$name" "$bad" "the folder has: $seen"
}
# number_of PATH: the number of the file's head and body in the folder
number_of() { basename "$(grep -l "^path $host/tree/$1\$" "$cache"/h-*)" | cut -c 3-; }
# mark_long_ago PATH: as if the file had been unreached since 1970
mark_long_ago() {
    local head
    head=$cache/h-$(number_of "$1")
    sed -i -e '/^mark /d' -e 's/^end$/mark 1000\nend/' "$head"
}
with=(--conf "$work/acng.conf" --cache "$cache")
began=$(date +%s)

prints 'an empty cache' 0 'done removed 0 marked 0\n' "${with[@]}"
fetch tree/pool/a_1_all.deb
fetch tree/pool/b_1_all.deb
a='pool/a_1_all.deb 3' b='pool/b_1_all.deb 4' index="dists/s/InRelease $release -" packages="dists/s/$list $size -"
prints 'files without an index' 1 'aborted problems 1\n' "${with[@]}"
holds 'then nothing is marked' "$a -" "$b -"
fetch tree/dists/s/InRelease

# No file may grow in this run, so its first mark can't be written. Its line goes into a pipe, which is no file.
cp -r "$cache" "$work/other"
seen=$( (trap '' XFSZ
    ulimit -f 0
    timeout 50 "$program" expire --conf "$work/acng.conf" --cache "$work/other" < /dev/null
    echo "status $?") 2>&1 | cat)
bad=0
[ "$seen" = "stopped removed 0
status 5" ] || bad=1
said "a mark that can't be written" "$bad" "$seen"
cache=$work/other holds 'then nothing is marked either' "$index" "$a -" "$b -"
rm -r "$work/other"

prints 'an index without its list' 0 'done removed 0 marked 2\n' "${with[@]}"
holds 'what no list names is marked' "$index" "$a now" "$b now"
fetch "tree/dists/s/$list"
prints 'an index and its list' 0 'done removed 0 marked 1\n' "${with[@]}"
holds 'what the list names has no mark' "$index" "$packages" "$a -" "$b now"
prints 'the same again' 0 'done removed 0 marked 1\n' "${with[@]}"
holds 'and all stay' "$index" "$packages" "$a -" "$b now"

# Marks of long ago, first where the list in the folder isn't the one that the index names.
mark_long_ago pool/a_1_all.deb
mark_long_ago pool/b_1_all.deb
body=$cache/b-$(number_of "dists/s/$list")
cp "$body" "$work/list"
tr 'P' 'Q' < "$work/list" > "$body"
prints 'another list than the one that is named' 1 'aborted problems 1\n' "${with[@]}"
holds 'then nothing is removed' "$index" "$packages" "$a 1000" "$b 1000"
prints 'that, and a configuration that is refused' 3 'line 1: BadNumber\n' --conf "$work/refused.conf" --cache "$cache"
cp -r "$cache" "$work/other"
prints 'one problem of at most one' 0 'done removed 2 marked 0\n' --conf "$work/two.conf" --cache "$work/other"
rm -r "$work/other"
cp -r "$cache" "$work/other"
prints 'no limit of problems' 0 'done removed 2 marked 0\n' --conf "$work/never.conf" --cache "$work/other"
rm -r "$work/other"

# The second of two bodies can't be removed, since it is a folder with something in it. Its head went before it.
cp -r "$cache" "$work/other"
first=$(number_of pool/a_1_all.deb) second=$(number_of pool/b_1_all.deb)
rm "$work/other/b-$second"
mkdir -p "$work/other/b-$second/stays"
sed -i "s/^size .*/size $(stat -c %s "$work/other/b-$second")/" "$work/other/h-$second"
prints "a body that can't be removed" 5 'stopped removed 1\n' --conf "$work/never.conf" --cache "$work/other"
bad=0
for name in "b-$first" "h-$first" "h-$second"; do [ ! -e "$work/other/$name" ] || bad=1; done
[ -d "$work/other/b-$second/stays" ] || bad=1
said 'then the one before it is gone' "$bad" "$(ls "$work/other")"
rm -r "$work/other"
if [ -c /dev/full ]; then
    timeout 50 "$program" expire "${with[@]}" < /dev/null > /dev/full 2> "$work/said"
    got=$?
    bad=0
    [ "$got" = 1 ] || bad=1
    said 'an aborted run and a full disk at the output' "$bad" "status $got, wanted 1"
fi
cp "$work/list" "$body"
gone=$cache/b-$(number_of pool/b_1_all.deb) stays=$cache/b-$(number_of pool/a_1_all.deb)
prints 'the list again' 0 'done removed 1 marked 0\n' "${with[@]}"
holds 'what was unreached for too long went' "$index" "$packages" "$a -"
bad=0
{ [ ! -e "$gone" ] && [ "$(cat "$stays")" = abc ]; } || bad=1
said 'its file too, and no other' "$bad" "$(ls "$cache")"

# 200 files, of which the index names every other one, over three runs. In place of the clock the marks move: 50 of the marked ones
# become older than the four days that they are kept, and 50 almost as old.
many=$work/many
python3 - "$many" << 'PYTHON'
import hashlib, os, sys
folder, files = sys.argv[1], {}
for k in range(200): files["h/debian/pool/f%03d_1_all.deb" % k] = b"file %d\n" % k
stanzas = ["Filename: pool/f%03d_1_all.deb\nSize: %d\nSHA256: %s\n" % (k, len(text), hashlib.sha256(text).hexdigest())
           for k, text in enumerate(files.values()) if k % 2 == 0]
packages = "\n".join(stanzas).encode()
listed = "SHA256:\n %s %d main/binary-all/Packages\n" % (hashlib.sha256(packages).hexdigest(), len(packages))
files["h/debian/dists/s/main/binary-all/Packages"] = packages
files["h/debian/dists/s/Release"] = listed.encode()
os.mkdir(folder)
for number, (path, text) in enumerate(files.items(), 1):
    open("%s/b-%016x" % (folder, number), "wb").write(text)
    open("%s/h-%016x" % (folder, number), "w").write(
        "acng-head 1\npath %s\norigin fetched 0 0\nsize %d\nchecked 5\nend\n" % (path, len(text)))
PYTHON
with_many=(--conf "$work/acng.conf" --cache "$many")
# marks_are NAME WANTED: how many files of the table have each mark, with `now` for one of this check
marks_are() {
    local seen
    seen=$(timeout 50 "$program" report "${with_many[@]}" < /dev/null | sed '$d' |
        awk -v from="$began" -v to="$(date +%s)" '{ print ($4 != "-" && $4 >= from && $4 <= to) ? "now" : $4 }' | sort | uniq -c | xargs)
    said "$1" "$([ "$seen" = "$2" ] && echo 0 || echo 1)" "$seen, wanted $2"
}
prints 'a first run over 200 files' 0 'done removed 0 marked 100\n' "${with_many[@]}"
marks_are 'marks what the list lacks' '102 - 100 now'
old=$((began - 4 * 86400 - 60)) younger=$((began - 4 * 86400 + 3600))
for number in $(seq 2 2 200); do
    sed -i "s/^mark .*/mark $([ "$number" -le 100 ] && echo $old || echo $younger)/" "$many/h-$(printf %016x "$number")"
done
prints 'a second one, four days on' 0 'done removed 50 marked 50\n' "${with_many[@]}"
marks_are 'removes what was unreached for longer, and keeps the other marks' "102 - 50 $younger"
prints 'a third one' 0 'done removed 0 marked 50\n' "${with_many[@]}"
[ "$(ls "$many"/b-* | wc -l)" = 152 ]
said 'the bodies of those that went are gone' $? "$(ls "$many"/b-* | wc -l)"

prints 'a configuration that is refused' 3 'line 1: BadNumber\n' --conf "$work/refused.conf" --cache "$cache"
prints "a configuration that isn't there" 4 '' --conf "$work/nowhere.conf" --cache "$cache"
prints 'a stray number' 2 'words: StrayNumber\n' 3
prints 'a folder that is a file' 5 '' --conf "$work/acng.conf" --cache "$work/body"
prints 'that, and a configuration that is refused' 3 'line 1: BadNumber\n' --conf "$work/refused.conf" --cache "$work/body"
if [ -c /dev/full ]; then
    timeout 50 "$program" expire "${with[@]}" < /dev/null > /dev/full 2> "$work/said"
    got=$?
    bad=0
    [ "$got" = 4 ] || bad=1
    said 'a full disk at the output' "$bad" "status $got, wanted 4"
fi
exit $failed
