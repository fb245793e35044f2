#!/usr/bin/env bash
# The built program's replies to some hundred requests over sockets, beside what the model reckons; and downloads that broke
# off, which curl and wget go on with through it (tests/replies.py).
set -u
cd "$(dirname "$0")/.." || exit 1
check=replies
. tests/common.sh
need python3
build
exec 3> /dev/null
timeout 300 python3 tests/replies.py "$program"
