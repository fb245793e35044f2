#!/usr/bin/env bash
# Reads the machine's own Debian indexes, where it has some, and compares the count of names and the sum of their sizes
# with what grep and awk find. Nothing of such a text is kept. Skipped with a line where there is none, or no `rt`.
set -eu
root=$(cd "$(dirname "$0")/.." && pwd)
lists=${1:-/var/lib/apt/lists}
scratch=$(mktemp -d /tmp/debian-index.XXXXXX)
trap 'rm -rf "$scratch"' EXIT
mkdir "$scratch/lists"
shopt -s nullglob
for index in "$lists"/*_Packages "$lists"/*_InRelease "$lists"/*_Release; do
    ln -s "$index" "$scratch/lists/"
done
# apt may keep its lists packed, and then has a helper that unpacks them.
helper=/usr/lib/apt/apt-helper
for index in "$lists"/*_Packages.*; do
    name=$(basename "$index")
    if [ -x "$helper" ]; then "$helper" cat-file "$index" > "$scratch/lists/${name%.*}"; fi
done
indexes=("$scratch/lists"/*)
if [ ${#indexes[@]} = 0 ] || ! command -v rt > /dev/null; then
    echo "debian_index: skipped, there is no index in $lists or no rt"
    exit 0
fi
. "$root/bench/crate.sh"
bench_crate index acng_base acng_stanza acng_index
rt run -- load "${indexes[0]}" > "$scratch/log" 2>&1 || { cat "$scratch/log"; exit 1; }

# The names of a list of packages: each has one Filename, and one Size.
by_hand_packages() { echo "$(grep -c '^Filename:' "$1") names, $(awk '/^Size:/ { s += $2 } END { printf "%.0f", s }' "$1") bytes"; }

# The entries under the field SHA256, up to the next field.
by_hand_release() {
    awk '/^SHA256:/ { inside = 1; next } /^[^ ]/ { inside = 0 } inside { n++; s += $2 } END { printf "%d names, %.0f bytes\n", n, s }' "$1"
}

failed=0
for index in "${indexes[@]}"; do
    case $index in
        *_Packages) kind=packages wanted=$(by_hand_packages "$index") ;;
        *_InRelease) kind=inrelease wanted=$(by_hand_release "$index") ;;
        *) kind=release wanted=$(by_hand_release "$index") ;;
    esac
    found=$(out/bench_index "$kind" "$index" | sed 's/, [0-9]* us$//')
    if [ "$found" = "$wanted" ]; then
        echo "debian_index: $(basename "$index"): $found"
    else
        echo "debian_index: $(basename "$index"): $found, and by hand $wanted"
        failed=1
    fi
done
exit $failed
