#!/usr/bin/env bash
# Makes the scripts of `acng_serve_table`, and by the model what is expected of them, and compares both with what is stored
# beside that program. The gate runs the program itself and compares what it prints with the stored text: so what it is held
# against is what the rules give, and never what it printed before.
set -eu
cd "$(dirname "$0")/.."
check=serve_table
command -v python3 > /dev/null || { echo "$check: skipped, there is no python3"; exit 0; }
stored=crates/acng_serve_table
python3 tests/model/scripts.py | cmp - "$stored/stdin" || { echo "$check: the scripts that are stored are others"; exit 1; }
python3 tests/model/proxy.py < "$stored/stdin" | cmp - "$stored/stdout" || { echo "$check: the expected text that is stored is another"; exit 1; }
echo "$check: $(grep -c '^script ' "$stored/stdin") scripts, as the model has them"
