#!/usr/bin/env bash
# Opens the report page of the built program's `serve` in a headless browser, as a reader would: the text on it is the table of what
# is held, also where it is 10,000 rows and where a name has characters that HTML writes in another way; and with `run=expire` the
# line of that run stands before it. The wanted texts are written from the rules.
set -u
cd "$(dirname "$0")/.." || exit 1
check=page
. tests/common.sh
need python3
for browser in chromium chromium-browser google-chrome ''; do command -v "$browser" > /dev/null && break; done
[ "$browser" ] || skip "there is no headless browser"
build

# shown NAME QUERY FILE: what the browser shows of the page is what the file has. The browser's own sandbox needs another user than root.
shown() {
    local bad=0
    timeout 100 "$browser" --headless --no-sandbox --disable-gpu --user-data-dir="$work/profile" --dump-dom \
        "http://127.0.0.1:$port/acng-report.html$2" > "$work/dom" 2> "$work/browser" ||
        { grep -q . "$work/dom" || skip "the browser doesn't start: $(tail -n 1 "$work/browser")"; }
    # The document as the browser has it: a <pre>, whose text is taken out again.
    python3 -c 'import html, re, sys; print(html.unescape(re.search("<pre>(.*)</pre>", sys.stdin.read(), re.S)[1]), end="")' \
        < "$work/dom" > "$work/seen" || bad=1
    cmp -s "$work/seen" "$3" || bad=1
    said "$1" "$bad" "it shows: $(diff "$work/seen" "$3" | head -c 400)"
}

# A folder of 10,000 files, as `once` may have left it.
cache=$work/cache
mkdir "$cache"
python3 - "$cache" "$work/table" << 'END'
import pathlib, sys
folder, rows = pathlib.Path(sys.argv[1]), {}
for number in range(1, 10_001):
    path = "mirror.example/<a&b>.deb" if number == 1 else f"mirror.example/pool/p{number:05}_1_all.deb"
    size = number % 7
    head = f"acng-head 1\npath {path}\norigin fetched 0 0\nsize {size}\nchecked 5\nend\n"
    (folder / f"h-{number:016x}").write_text(head)
    (folder / f"b-{number:016x}").write_text("x" * size)
    rows[path] = size
table = "".join(f"{path} {size} solid -\n" for path, size in sorted(rows.items()))
pathlib.Path(sys.argv[2]).write_text(f"{table}rows {len(rows)} bytes {sum(rows.values())}\n")
END
configure_server 'MaintOverHttp: 1'
start_server
shown '10,000 files' '' "$work/table"
# No index is held, so the run marks nothing.
{ echo 'aborted problems 1' && cat "$work/table"; } > "$work/after"
shown 'a run of expiration' '?run=expire' "$work/after"
shown 'the table again' '' "$work/table"
kill "$server"
exit $failed
