#!/bin/sh
# Holds the firmware against the second implementation: that one's own tests, then random calls of both.
# Usage: tests/second.sh [FLAGS OF tests/second/harness/src/bin/soak.rs], a million calls where there are none.
cd "$(dirname "$0")/.." || exit 1
sh tests/library.sh || exit 1
export CARGO_TARGET_DIR=target/second
package=tests/second/Cargo.toml
cargo test --release --offline --quiet --manifest-path $package -p second --test sheet --test notation --test signed || exit 1
cargo test --release --offline --quiet --manifest-path $package -p harness --lib --test judged --test imported --test tray || exit 1
[ $# -gt 0 ] || set -- --calls 1000000
cargo run --release --offline --quiet --manifest-path $package -p harness --bin soak -- "$@"
