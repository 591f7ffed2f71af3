#!/bin/sh
# That the tests can fail: each edit of the second implementation under tests/second/must-fail must be met by a difference with the firmware on random calls,
# and as a library of its own by the conformity kit's vectors alone. Not part of the gate: it builds the packages anew for each edit.
# Usage: tests/wrong.sh [--vectors | --calls] [LABEL..]: only the one or the other, and only these edits. The last line is 'N passed, M failed'.
cd "$(dirname "$0")/.." || exit 1
sh tests/library.sh || exit 1
vectors=yes
calls=yes
case $1 in
--vectors) calls=no; shift ;;
--calls) vectors=no; shift ;;
esac
work=target/wrong
copy=$work/tests/second
export CARGO_TARGET_DIR=$work/target/second
mkdir -p $work/tests $work/target
# No links: `rt ci` refuses any below the project's folder.
rm -rf $copy $work/bindings $work/target/staticlib
cp -R bindings $work/bindings
cp -R target/staticlib $work/target/staticlib
cp -R tests/second $copy
manifest=$copy/Cargo.toml
passed=0
failed=0
fail() { echo "failed: $1"; failed=$((failed + 1)); }

# met LABEL: the edit as it stands in the copy is met by each of the tests
met() {
    if [ $calls = yes ]; then
        if ! cargo build --release --offline --quiet --manifest-path $manifest -p harness --bin soak 2> $work/log; then
            fail "$1 doesn't compile"
        elif $CARGO_TARGET_DIR/release/soak --calls 200000 | grep -q '^DIFFERENCE'; then
            passed=$((passed + 1))
        else
            fail "no difference after $1"
        fi
    fi
    # The laws that the harness adds, and the other orders of steps, are no part of a library.
    if [ $vectors = yes ] && ! grep -q -e '^file: harness/' -e '^file: src/orders.rs' "tests/second/must-fail/$1.edit"; then
        if ! cargo build --release --offline --quiet --manifest-path $manifest -p shell 2> $work/log; then
            fail "$1 doesn't compile as a library"
        else
            sh conformity/run.sh $CARGO_TARGET_DIR/release/libshell.a conformity/vectors.txt > $work/report 2>&1
            if [ $? -eq 1 ] && grep -q '^failed: ' $work/report; then
                passed=$((passed + 1))
            else
                fail "no vector meets $1"
            fi
        fi
    fi
}

[ $# -gt 0 ] || set -- $(ls tests/second/must-fail | sed 's/\.edit$//')
for label in "$@"; do
    edit=tests/second/must-fail/$label.edit
    name=$(sed -n 's/^file: //p' "$edit")
    if OLD=$(sed -n 's/^old: //p' "$edit") NEW=$(sed -n 's/^new: //p' "$edit") awk '
        { at = index($0, ENVIRON["OLD"]) }
        at { print substr($0, 1, at - 1) ENVIRON["NEW"] substr($0, at + length(ENVIRON["OLD"])); edited++; next }
        { print }
        END { exit edited != 1 }' "tests/second/$name" > "$copy/$name"; then
        met "$label"
    else
        fail "$label fits no one place"
    fi
    cp "tests/second/$name" "$copy/$name"
done
echo "$passed passed, $failed failed"
[ $failed -eq 0 ]
