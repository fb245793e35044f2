#!/usr/bin/env bash
# Runs the built program's `check-conf` over the configurations of tests/check-conf, and its words that are refused.
# What is printed is compared byte for byte, and the status too.
set -u
cd "$(dirname "$0")/.." || exit 1
check=check_conf
. tests/common.sh
build
cp -r tests/check-conf "$work/conf"
mkdir "$work/empty"
# Neither is a list file: a folder, and a link to nothing, as editors leave beside a file.
mkdir "$work/conf/groups/mirrors_debian_folder"
ln -s nowhere "$work/conf/groups/.#acng.conf"
# Nor is a name that isn't UTF-8, where the file system takes one.
: > "$work/conf/groups/"$'mirrors_\xff' 2> /dev/null

# expect FOLDER STATUS TEXT WORD..: the program's status and output, run in that folder
expect() {
    local folder=$1 status=$2 text=$3
    shift 3
    printf '%b' "$text" > "$work/wanted"
    (cd "$folder" && timeout 30 "$program" "$@" < /dev/null > "$work/printed" 2> "$work/error")
    local got=$?
    if [ "$got" != "$status" ] || ! cmp -s "$work/printed" "$work/wanted" || [ -s "$work/error" ]; then
        echo "check_conf: $*: status $got, wanted $status, or other bytes:"
        cat "$work/printed" "$work/error"
        failed=1
    else
        echo "check_conf: $*: as expected"
    fi
}
for name in groups refused warned; do
    status=0
    [ "$name" = refused ] && status=3
    expect "$work/conf" "$status" "$(cat "tests/check-conf/$name.stdout")\n" check-conf --conf "$name/acng.conf"
    expect "$work/conf/$name" "$status" "$(cat "tests/check-conf/$name.stdout")\n" check-conf
done
expect "$work/empty" 0 'ok groups 0 warnings 0\n' check-conf
expect "$work/empty" 4 '' check-conf --conf acng.conf
expect "$work/empty" 4 '' check-conf --conf nowhere/acng.conf
expect "$work/conf/refused" 2 'words: StrayNumber\n' import 3
expect "$work/empty" 2 'words: NotRead\n' gen 0
expect "$work/empty" 2 'words: NoNumber\n' gen
expect "$work/empty" 2 'words: StrayNumber\n' expire 3
expect "$work/empty" 2 'words: NoCommand\n' check
expect "$work/empty" 2 'words: NotRead\n' check-conf $'\xff'
expect "$work/empty" 2 'words: NotRead\n'
expect "$work/empty" 2 'words: StrayNumber\n' once 3
# A folder can't be read, and a file without an end is read to its limit.
expect "$work/empty" 4 '' check-conf --conf .
[ -c /dev/zero ] && expect "$work/empty" 3 'line 1: TooLong\n' check-conf --conf /dev/zero
# Of several statuses that of a failed output comes last.
if [ -c /dev/full ]; then
    full() {
        local folder=$1 status=$2
        shift 2
        (cd "$folder" && timeout 30 "$program" "$@" < /dev/null > /dev/full 2> /dev/null)
        local got=$?
        if [ "$got" = "$status" ]; then
            echo "check_conf: $* with a full output: as expected"
        else
            echo "check_conf: $* with a full output: status $got, wanted $status"
            failed=1
        fi
    }
    full "$work/conf/groups" 4 check-conf
    full "$work/conf/refused" 3 check-conf
    full "$work/empty" 2 import 3
fi
exit $failed
