#!/bin/sh
# The library in JavaScript and the bench page: the conformity vectors through the binding, what the page works out beside it, in node; and the page driven in a
# browser. The last line is 'N passed, M failed'. Usage: tests/web.sh, with node; chromium is installed with CI=true.
# On a kit that boards/ does not know, or without node, nothing is run, which a line tells, and nothing is counted; so is the browser's part without chromium.
cd "$(dirname "$0")/.." || exit 1
not_run() { echo "not run: the page and the binding for JavaScript: $1"; echo "0 passed, 0 failed"; exit 0; }
told=$( (script=tests/web.sh; . boards/kit.sh) 2>&1) || not_run "$told"
command -v node > /dev/null || not_run "node is missing: apt-get update && apt-get install -y nodejs"
sh web/build.sh || exit 1
work=$(mktemp -d) || exit 1
trap 'rm -rf "$work"' EXIT
passed=0
failed=0

# part COMMAND..: adds what its closing line says; a run without one, or with a status that it does not explain, counts as one failure
part() {
    "$@" > "$work/out" 2>&1
    status=$?
    sed '$d' "$work/out"
    set -- $(sed -n '$s/^\([0-9]*\) passed, \([0-9]*\) failed$/\1 \2/p' "$work/out")
    if [ $# -ne 2 ]; then
        tail -n 3 "$work/out"
        set -- 0 1
    fi
    [ "$status" -eq 0 ] || [ "$2" -gt 0 ] || set -- "$1" 1
    passed=$((passed + $1))
    failed=$((failed + $2))
}
part node web/test.mjs
part sh web/browser.sh
if [ "$(wc -c < target/web/braid.html)" -le 400000 ]; then
    passed=$((passed + 1))
else
    failed=$((failed + 1))
    echo "failed: the page has more than 400,000 bytes"
fi
echo "$passed passed, $failed failed"
[ "$failed" -eq 0 ]
