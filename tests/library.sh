#!/bin/sh
# Builds the static library for C where it is missing or older than the code.
cd "$(dirname "$0")/.." || exit 1
library=target/staticlib/libbraid.a
newer() { find crates crates.txt -path 'crates/*/out' -prune -o \( -name '*.rt' -o -name crates.txt \) -newer $library -print; }
if [ -f $library ] && [ -z "$(newer)" ]; then
    exit 0
fi
mkdir -p target/staticlib
(cd crates/braid && rt lib) > target/staticlib.log 2>&1 || { cat target/staticlib.log; echo "the static library was not built"; exit 1; }
cp crates/braid/out/libbraid.a $library
