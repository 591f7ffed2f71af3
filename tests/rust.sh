#!/bin/sh
# The Rust packages: their layout and clippy's warnings, where cargo has these, the binding's own tests, those in its documentation too, and the tool's. The
# last line is 'N passed, M failed'. Usage: tests/rust.sh, with cargo.
cd "$(dirname "$0")/.." || exit 1
sh tests/library.sh || exit 1
passed=0
failed=0
log=$(mktemp) || exit 1
trap 'rm -f "$log"' EXIT

# one LABEL COMMAND..: a test by its exit status
one() {
    label=$1
    shift
    if "$@" > "$log" 2>&1; then passed=$((passed + 1)); else failed=$((failed + 1)); echo "failed: $label"; tail -n 20 "$log"; fi
}

# each package with the folder of what is built from it
while read -r package built; do
    manifest=$package/Cargo.toml
    export CARGO_TARGET_DIR=target/$built
    if cargo fmt --version > /dev/null 2>&1; then
        one "the layout of $package" cargo fmt --all --check --manifest-path "$manifest"
    else
        echo "not run: the layout of $package, for which cargo fmt is missing"
    fi
    if cargo clippy --version > /dev/null 2>&1; then
        one "clippy on $package" cargo clippy --release --offline --quiet --workspace --all-targets --manifest-path "$manifest" -- -D warnings
    else
        echo "not run: clippy on $package, for which cargo clippy is missing"
    fi
done <<'PACKAGES'
bindings/rust bindings
tests/second second
tool tool
PACKAGES
export CARGO_TARGET_DIR=target/bindings
one "the binding's tests" cargo test --release --offline --quiet --manifest-path bindings/rust/Cargo.toml
export CARGO_TARGET_DIR=target/tool
one "the tool's own tests" cargo test --release --offline --quiet --manifest-path tool/Cargo.toml
echo "$passed passed, $failed failed"
[ "$failed" -eq 0 ]
