#!/usr/bin/env bash
# Shows that the table of desk commands is the model's: tests/model/house.py makes the lists of commands and what has to be
# answered, and both files of crates/acng_desk_table are these, byte for byte. That the program answers so is shown by its
# stored run.
set -u
cd "$(dirname "$0")/.." || exit 1
check=desk_table
. tests/common.sh
need python3
python3 tests/model/house.py "$work" || { echo "desk_table: the model fails"; exit 1; }
for file in stdin stdout; do
    if cmp "$work/$file" "crates/acng_desk_table/$file"; then
        echo "desk_table: $file: as the model has it, $(wc -l < "$work/$file") lines"
    else
        failed=1
    fi
done
exit "$failed"
