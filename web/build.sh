#!/bin/sh
# Writes the library for browsers and node: target/web/braid.mjs with braid.wasm, the binding by itself, and target/web/braid.html, the bench page in one file,
# which runs from a disk. Usage: sh web/build.sh.
# Exit status: 0 all are there; 1 the library is not proved or not built; 2 bad usage, or the kit is not as expected.
cd "$(dirname "$0")/.." || exit 2
[ $# -eq 0 ] || { echo "web/build.sh takes no argument" >&2; exit 2; }
sh boards/build.sh wasm32 || exit $?
out=target/web
mkdir -p $out
cp web/braid.mjs target/boards/wasm32/braid.wasm $out/

# joined MODULE..: modules as one classic script: what they import is defined before them, and what they export is a name like others
joined() {
    echo '(() => {'
    echo '"use strict";'
    for module; do sed -e '/^import /d' -e 's/^export //' "web/$module.mjs"; done
    echo '})();'
}
joined braid tables explaining worker > $out/worker.js
joined braid beds cases drawing reversing sha256 tables \
    state calling programs table_view compare_view tray_view bed_view reverse_view page > $out/page.js
base64 -w 0 $out/braid.wasm > $out/wasm.base64
# Each mark in the page stands alone on its line or in its element.
awk -v out=$out '
    function put(file,    line) { while ((getline line < file) > 0) print line; close(file) }
    index($0, "/*STYLE*/") { print "<style>"; put("web/page.css"); print "</style>"; next }
    index($0, "/*WASM*/") {
        printf "<script type=\"application/octet-stream\" id=\"wasm\">"; put(out "/wasm.base64"); print "</script>"
        print "<script type=\"text/plain\" id=\"worker\">"; put(out "/worker.js"); print "</script>"
        next
    }
    index($0, "/*SCRIPT*/") { print "<script>"; put(out "/page.js"); print "</script>"; next }
    { print }' web/page.html > $out/braid.html
rm $out/worker.js $out/page.js $out/wasm.base64
