#!/bin/sh
# Drives the bench page in chromium (web/browser.mjs). The last line is 'N passed, M failed'. Pictures go to target/web/shots.
# Usage: sh web/browser.sh [--install]. Chromium is installed from Debian's packages with --install, or CI=true; where it is missing, the part is named as not
# run.
cd "$(dirname "$0")/.." || exit 1
[ $# -eq 0 ] || [ "$*" = --install ] || { echo "usage: sh web/browser.sh [--install]" >&2; exit 2; }
for tool in node chromium; do
    command -v $tool > /dev/null && continue
    if [ "$1" = --install ] || [ "$CI" = true ]; then
        { apt-get update && apt-get install -y --no-install-recommends chromium nodejs; } > /dev/null 2>&1
    fi
    command -v $tool > /dev/null && continue
    echo "not run: the page in a browser, for which $tool is missing: apt-get update && apt-get install -y chromium nodejs"
    echo "0 passed, 0 failed"
    exit 0
done
sh web/build.sh || exit 1
node web/browser.mjs chromium
