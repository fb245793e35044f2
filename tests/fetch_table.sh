#!/usr/bin/env bash
# The scripts of a mirror, and what the program `acng_fetch_table` has to print of them, are made anew by a model of downloads
# in Python and compared with the files that the gate runs that program by: both are the model's, and not the program's.
set -u
cd "$(dirname "$0")/.." || exit 1
check=fetch_table
. tests/common.sh
need python3
python3 -B tests/model/download_scripts.py "$work" || { echo "$check: the model fails"; exit 1; }
for name in stdin stdout; do
    cmp "$work/$name" "crates/acng_fetch_table/$name"
    said "the table's $name" $? "other bytes than the model's"
done
exit $failed
