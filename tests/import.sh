#!/usr/bin/env bash
# Runs the built program's `import` over a cache folder with 100 files in its import folder: what an index names at one path and at
# two, what is held, what no index names, names with odd bytes, and a file that can't be read. The wanted lines are written from
# the rules; what was imported is then served by `once` without asking the mirror.
set -u
cd "$(dirname "$0")/.." || exit 1
check=import
. tests/common.sh
need python3
build
: > "$work/body"
tree=$work/tree cache=$work/cache found=$work/cache/_import

# The mirror's tree, the files to be found, and the lines wanted of a first and of a second run, in the byte order of the names.
# 64 packages are named, of which the 8th to the 11th have one text, and so have two paths each with one other.
cat > "$work/make.py" <<'PYTHON'
import hashlib, os, sys
work = sys.argv[1]
text = lambda k: b"package %d\n" % (k - k % 2 if 8 <= k < 12 else k)
digest = lambda bytes: hashlib.sha256(bytes).hexdigest()
tree = work + "/tree"
os.makedirs(tree + "/dists/s/main/binary-all"); os.makedirs(tree + "/pool")
stanzas = ""
for k in range(64):
    open("%s/pool/p%02d_1_all.deb" % (tree, k), "wb").write(text(k))
    stanzas += "Package: p%02d\nFilename: pool/p%02d_1_all.deb\nSize: %d\nSHA256: %s\n\n" % (k, k, len(text(k)), digest(text(k)))
packages = stanzas.encode()
open(tree + "/dists/s/main/binary-all/Packages", "wb").write(packages)
open(tree + "/dists/s/InRelease", "w").write(
    "-----BEGIN PGP SIGNED MESSAGE-----\nHash: SHA256\n\nSHA256:\n %s %d main/binary-all/Packages\n-----BEGIN PGP SIGNATURE-----\n"
    % (digest(packages), len(packages)))

# Names to texts: what a first run says of each, and what a second one does.
files = {}
for k in range(64):
    if k in (9, 11): continue                     # the same text as the one before
    name = {3: b"a name with blanks", 5: "h\u00e9.deb".encode(), 7: b"tab\tand\nline"}.get(k, b"p%02d_1_all.deb" % k)
    kept = b"held" if k in (0, 1, 2) else b"kept 2" if k in (8, 10) else b"kept 1"
    files[name] = (text(k), kept, b"held")
for k in range(30): files[b"unknown-%02d" % k] = (b"nothing names %d\n" % k, b"unknown", b"unknown")
files[b"empty"] = (b"", b"unknown", b"unknown")
# Of two files with one text the first enters, in the order of the names.
for k in range(20, 27): files[b"q%02d-again" % k] = (text(k), b"held", b"held")
assert len(files) == 100, len(files)
found = work.encode() + b"/found"
os.mkdir(found)
for name, (bytes_, first, second) in files.items(): open(found + b"/" + name, "wb").write(bytes_)
shown = lambda name: bytes(b if 0x21 <= b <= 0x7e else 0x3f for b in name)
line = lambda end, name: end + b" " + shown(name) + b"\n"
names = sorted(files)
open(work + "/first", "wb").write(b"".join(line(files[n][1], n) for n in names))
open(work + "/second", "wb").write(b"".join(line(files[n][2], n) for n in names))
open(work + "/unknown", "wb").write(b"".join(line(b"unknown", n) for n in names))
PYTHON
python3 "$work/make.py" "$work" || exit 1
start_mirror "$tree"
: > "$work/acng.conf"
printf 'Port: 70000\n' > "$work/refused.conf"

with=(--conf "$work/acng.conf" --cache "$cache")
: > "$work/none"
printf 'line 1: BadNumber\n' > "$work/bad"

prints_file 'no import folder' 0 "$work/none" "${with[@]}"
mkdir "$found"
prints_file 'an empty one' 0 "$work/none" "${with[@]}"
# Neither is a found file: a folder, a link to nothing, and a name that isn't UTF-8, where the file system takes one.
mkdir "$found/folder"
ln -s nowhere "$found/dangling"
: > "$found/"$'p\xff.deb' 2> /dev/null
cp "$work/found/"* "$found"
prints_file 'files without an index' 0 "$work/unknown" "${with[@]}"
for path in dists/s/InRelease dists/s/main/binary-all/Packages pool/p0{0,1,2}_1_all.deb; do fetch "tree/$path"; done
prints_file 'a configuration that is refused' 3 "$work/bad" --conf "$work/refused.conf" --cache "$cache"
prints_file '100 files and an index' 0 "$work/first" "${with[@]}"
prints_file 'the same again' 0 "$work/second" "${with[@]}"

# What was imported is held, and served without the mirror.
timeout 50 "$program" report "${with[@]}" < /dev/null > "$work/table"
bad=0
[ "$(tail -n 1 "$work/table" | cut -d ' ' -f 1,2)" = 'rows 66' ] || bad=1
[ "$(grep -l '^origin imported ' "$cache"/h-* | wc -l)" = 61 ] || bad=1
said 'all 64 packages and the index are held' "$bad" "$(tail -n 1 "$work/table")"
before=$(wc -l < "$work/log")
bad=0
for k in 03 05 07 08 09 10 11 20 26 63; do
    fetch "tree/pool/p${k}_1_all.deb"
    file="$tree/pool/p${k}_1_all.deb"
    { file_head "Content-Length: $(stat -c %s "$file")\r\n"; cat "$file"; } > "$work/wanted"
    cmp -s "$work/reply" "$work/wanted" || bad=1
done
[ "$(wc -l < "$work/log")" = "$before" ] || bad=1
said 'imports are served without the mirror' "$bad" "$(head -c 300 "$work/reply")"
bad=0
for file in "$work/found/"*; do cmp -s "$file" "$found/${file##*/}" || bad=1; done
said 'found files stay where they are' "$bad" "$(find "$found" | wc -l)"
# A command that starts over the folder leaves the import folder alone.
timeout 50 "$program" expire "${with[@]}" < /dev/null > "$work/printed"
bad=0
{ [ "$(cat "$work/printed")" = 'done removed 0 marked 0' ] && [ -f "$found/empty" ] && [ -d "$found/folder" ]; } || bad=1
said 'an expiration leaves them too' "$bad" "$(cat "$work/printed")"

# A file that can't be read: the memory of the process itself has no byte at its place 0.
if [ -f /proc/self/mem ]; then
    ln -s /proc/self/mem "$found/zz"
    { cat "$work/second"; printf 'fault zz\n'; } > "$work/wanted"
    prints_file "a file that can't be read" 4 "$work/wanted" "${with[@]}"
    rm "$found/zz"
else
    echo "import: a file that can't be read: skipped, there is no /proc/self/mem"
fi
if [ -c /dev/full ]; then
    timeout 50 "$program" import "${with[@]}" < /dev/null > /dev/full 2> "$work/said"
    got=$?
    bad=0
    [ "$got" = 4 ] || bad=1
    said 'a full disk at the output' "$bad" "status $got, wanted 4"
fi

printf 'words: StrayNumber\n' > "$work/stray"
prints_file "a configuration that isn't there" 4 "$work/none" --conf "$work/nowhere.conf" --cache "$cache"
prints_file 'a stray number' 2 "$work/stray" 3
prints_file 'a folder that is a file' 5 "$work/none" --conf "$work/acng.conf" --cache "$work/body"
prints_file 'that, and a configuration that is refused' 3 "$work/bad" --conf "$work/refused.conf" --cache "$work/body"
mkdir "$work/other"
: > "$work/other/_import"
prints_file 'an import folder that is a file' 4 "$work/none" --conf "$work/acng.conf" --cache "$work/other"
prints_file 'that, and a configuration that is refused' 3 "$work/bad" --conf "$work/refused.conf" --cache "$work/other"
exit $failed
