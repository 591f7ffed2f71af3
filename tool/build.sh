#!/bin/sh
# Proves and builds the library, then the tool: target/bin/braid. Usage: sh tool/build.sh. It needs the Rattle toolchain and cargo.
# Exit status: 0 the tool is there; 1 the library is not proved, or the tool was not built; 2 bad usage, or a tool is missing.
cd "$(dirname "$0")/.." || exit 2
[ $# -eq 0 ] || { echo "tool/build.sh takes no argument" >&2; exit 2; }
command -v cargo > /dev/null || { echo "tool/build.sh: there is no cargo on the PATH: install Rust" >&2; exit 2; }
command -v rt > /dev/null || { echo "tool/build.sh: there is no rt on the PATH: install the Rattle toolchain" >&2; exit 2; }
sh tests/library.sh || exit 1
CARGO_TARGET_DIR=target/tool cargo build --release --offline --quiet --manifest-path tool/Cargo.toml || exit 1
mkdir -p target/bin
cp target/tool/release/braid target/bin/braid
