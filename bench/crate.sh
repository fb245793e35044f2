# Read by the measures that need a program of their own.
#
# bench_crate NAME CRATE... makes the crate bench_NAME over these crates in $scratch, and goes there. It is a crate of a
# copy, so that the repository's own crates stay as they are. The program is NAME/main.rt.txt; the other files beside it
# are the invariants of its functions. It is proved and built as the repository's program is. What `rt check` kept of a
# crate below goes along, so that it isn't proved again where its text is the same.
bench_crate() {
    local name=$1 repo=$scratch/repo crate=$scratch/repo/crates/bench_$1
    shift
    mkdir -p "$crate/src" "$crate/proofs"
    cp "$root/HANDLES" "$repo/"
    for below in "$@"; do
        mkdir "$repo/crates/$below"
        for part in src specs proofs; do cp -r "$root/crates/$below/$part" "$repo/crates/$below/"; done
        if [ -d "$root/crates/$below/out/rlib" ]; then
            mkdir "$repo/crates/$below/out"
            cp -r "$root/crates/$below/out/rlib" "$repo/crates/$below/out/"
        fi
        grep "^$below:" "$root/crates.txt" >> "$repo/crates.txt"
    done
    echo "bench_$name: $*" >> "$repo/crates.txt"
    cp "$root/bench/$name/main.rt.txt" "$crate/src/main.rt"
    : > "$crate/proofs/Lib.antt"
    for invariants in "$root/bench/$name"/*.antt.txt; do
        [ -e "$invariants" ] || continue
        mkdir "$crate/proofs/$(basename "$invariants" .antt.txt)"
        cp "$invariants" "$crate/proofs/$(basename "$invariants" .antt.txt)/Invariants.antt"
    done
    cd "$crate"
}
