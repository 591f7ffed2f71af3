#!/bin/sh
# Measures the firmware beside the same algorithm in Rust, and beside another archive where one is named. Not part of the gate: it wants a machine that does
# nothing else. Usage: tests/speed.sh [--before ARCHIVE] [--milliseconds M] [--steps S] [--words W] [--row TEXT]
# ARCHIVE is the one whose path tests/before.sh writes.
archive=
if [ "$1" = --before ]; then
    archive=$(realpath -e -- "$2") || exit 2
    shift 2
fi
cd "$(dirname "$0")/.." || exit 1
sh tests/library.sh || exit 1
export CARGO_TARGET_DIR=target/second
speed="--release --offline --quiet --manifest-path tests/second/Cargo.toml -p harness --bin speed"
[ -n "$archive" ] || exec cargo run $speed -- "$@"
# Cargo does not look at the archive: its sum among the flags says when it is another.
cargo rustc $speed -- --cfg before -C metadata="$(cksum < "$archive" | cut -d' ' -f1)" -C link-arg="$archive" || exit 1
exec target/second/release/speed "$@"
