#!/usr/bin/env bash
# Makes the lists of steps of `acng_expire_table`, and by the model what is expected of them, and compares both with what is
# stored beside that program. The gate runs the program itself and compares what it prints with the stored text: so what it is
# held against is what the rules give, and never what it printed before.
set -eu
cd "$(dirname "$0")/.."
check=expire_table
command -v python3 > /dev/null || { echo "$check: skipped, there is no python3"; exit 0; }
stored=crates/acng_expire_table
python3 tests/model/expire.py in | cmp - "$stored/stdin" || { echo "$check: the lists that are stored are others"; exit 1; }
python3 tests/model/expire.py out | cmp - "$stored/stdout" || { echo "$check: the expected text that is stored is another"; exit 1; }
echo "$check: $(grep -c '^list ' "$stored/stdin") lists, as the model has them"
