#!/bin/sh
# What is made from the library's module. On other processors: WebAssembly and two emulated boards run the small vectors and a short stream of random calls,
# x86-64 has the code that rt makes, and what is wrong is refused in a clear line. With edges counted: every edge is reached by the vectors, or listed.
# The last line is 'N passed, M failed'. Usage: tests/boards.sh, with gcc; emulators are installed with CI=true.
cd "$(dirname "$0")/.." || exit 1
work=$(mktemp -d) || exit 1
trap 'rm -rf "$work"' EXIT
passed=0
failed=0

# seen LABEL COUNT TEXT: the look at a retargeted module (boards/extended.awk) says this so often of $work/wrong.ll, or more often
seen() {
    if [ "$(awk -f boards/extended.awk "$work/wrong.ll" | grep -c "$3")" -ge "$2" ]; then
        passed=$((passed + 1))
    else
        failed=$((failed + 1))
        echo "failed: not seen: $1"
    fi
}

# refuses LABEL STATUS TEXT COMMAND..: the command ends with this status and says this in one line
refuses() {
    label=$1
    wanted=$2
    text=$3
    shift 3
    "$@" > "$work/out" 2>&1
    status=$?
    if [ $status -eq "$wanted" ] && [ "$(wc -l < "$work/out")" -eq 1 ] && grep -q -e "$text" "$work/out"; then
        passed=$((passed + 1))
    else
        failed=$((failed + 1))
        echo "failed: $label: status $status, and:"
        head -n 3 "$work/out"
    fi
}

sh boards/test.sh --gate --small --calls 2000 x86_64-linux wasm32 aarch64-linux cortex-m4 > "$work/report" 2>&1
status=$?
sed '$d' "$work/report"
set -- $(sed -n '$s/^\([0-9]*\) passed, \([0-9]*\) failed$/\1 \2/p' "$work/report")
if [ $# -ne 2 ]; then
    tail -n 3 "$work/report"
    set -- 0 1
fi
[ "$status" -eq 0 ] || [ "$2" -gt 0 ] || set -- "$1" 1
passed=$1
failed=$2
if ! grep -q '^not run: the boards' "$work/report"; then
    refuses "an unknown target" 2 'there is no target z80: the targets are x86_64-linux ' sh boards/build.sh z80
    refuses "an unknown target to run" 2 'there is no target z80: the targets are ' sh boards/test.sh z80
    refuses "an unknown option" 2 'there is no option --fast' sh boards/test.sh --fast
    refuses "a number that is none" 2 "--calls wants a number, and not 'many'" sh boards/test.sh --calls many
    mkdir "$work/kit"
    refuses "a kit without a compiler" 2 'has no clang at ' env RATTLE_HOME="$work/kit" sh boards/build.sh wasm32
    RATTLE_HOME=$work/kit sh boards/test.sh --gate wasm32 > "$work/out" 2>&1
    status=$?
    if [ $status -eq 0 ] && grep -q '^not run: the boards: ' "$work/out" && [ "$(tail -n 1 "$work/out")" = "0 passed, 0 failed" ]; then
        passed=$((passed + 1))
    else
        failed=$((failed + 1))
        echo "failed: another kit in the gate: status $status, and:"
        tail -n 3 "$work/out"
    fi
    # The look at the module sees a call without zeroext, one that is called from within, and a pointer that the target lays out.
    module=target/boards/aarch64-linux/braid.ll
    sed 's/ zeroext i8 @braid_bed(/ i8 @braid_bed(/; s/i16 zeroext /i16 /' $module > "$work/wrong.ll"
    seen "a call without zeroext" 12 'has no zeroext'
    for line in '%1 = call i8 @braid_bed(ptr null)' '%1 = alloca ptr, align 8' '%1 = load { i8, ptr }, ptr %r0, align 8' '%1 = load [2 x ptr], ptr %r0' \
        'store { ptr, i64 } %r1, ptr %r0, align 8' '%1 = getelementptr inbounds ptr, ptr %r0, i64 1'; do
        { cat $module; echo "  $line"; } > "$work/wrong.ll"
        case $line in *call*) text='a call from within the module' ;; *) text='a pointer in memory that is laid out by the target' ;; esac
        seen "$line" 1 "$text"
    done
    # An emulator that is missing is named, and counts neither way: of the commands only those that are needed before are on the path.
    mkdir "$work/bin"
    for command in sh sed awk grep cat cp mkdir rm ln mv basename dirname readlink find tail head wc cmp tr uname rt gcc ld as ar objdump mktemp sort env id; do
        [ -z "$(command -v $command)" ] || ln -s "$(command -v $command)" "$work/bin/$command"
    done
    # rt is a program in Python: the interpreter itself, since what stands on the path may be a script that looks for it.
    ln -s "$(python3 -c 'import sys; print(sys.executable)')" "$work/bin/python3"
    PATH=$work/bin CI=false sh boards/test.sh --small --calls 10 riscv64-linux > "$work/out" 2>&1
    status=$?
    if [ $status -eq 0 ] && grep -q '^not run: riscv64-linux, for which qemu-riscv64 riscv64-linux-gnu-gcc is missing: apt-get ' "$work/out" &&
        [ "$(tail -n 1 "$work/out")" = "0 passed, 0 failed" ]; then
        passed=$((passed + 1))
    else
        failed=$((failed + 1))
        echo "failed: a missing emulator is not named: status $status, and:"
        tail -n 3 "$work/out"
    fi
    sh conformity/coverage.sh > "$work/out" 2>&1
    if [ $? -eq 0 ]; then passed=$((passed + 1)); else failed=$((failed + 1)); echo "failed: every edge is reached or listed:"; tail -n 5 "$work/out"; fi
fi
echo "$passed passed, $failed failed"
[ "$failed" -eq 0 ]
