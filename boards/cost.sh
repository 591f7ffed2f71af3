#!/bin/sh
# Counts the instructions of the library on emulated bare boards (qemu-system with -icount shift=0, repeatable whatever else runs) and writes a table: a step of
# reverse and of compare, on the words of tests/speed.sh, and a call of clear; the bytes of code, and those of stack that boards/test.sh tells. It also looks in
# the machine code that no loop in which signs are turned has a branch but its own.
# Usage: sh boards/cost.sh [--install] [--no-stack] [TARGET..], of aarch64, riscv64 and cortex-m4; all where none is named.
#   --install   installs the emulators and compilers that are missing, from Debian's packages; so does CI=true in the environment
#   --no-stack  leaves out the stack, and with it the run of boards/test.sh
# A target whose tools are missing is named, with the line that would install them, and has no column.
# Exit status: 0 all else is measured and nothing failed; 1 something failed; 2 bad usage, or the kit is not as expected.
cd "$(dirname "$0")/.." || exit 2
script=boards/cost.sh
. boards/kit.sh
all="aarch64 riscv64 cortex-m4"
install=${CI:-false}
with_stack=true
while [ $# -gt 0 ]; do
    case $1 in
    --install) install=true ;;
    --no-stack) with_stack=false ;;
    -*) fail "there is no option $1: the options are --install and --no-stack" ;;
    *) break ;;
    esac
    shift
done
[ $# -gt 0 ] || set -- $all
for target; do
    case " $all " in *" $target "*) ;; *) fail "there is no target $target: the targets are $all" ;; esac
done
work=target/boards/cost
mkdir -p $work
rm -f $work/*
failed=0

# failure TEXT: something that is not as it should be
failure() { failed=1; echo "$script: $1" >&2; }

# describe TARGET: the name under which boards/build.sh has it, the names of its tools, and what runs it
describe() {
    case $1 in
    aarch64)
        built=aarch64-linux
        prefix=aarch64-linux-gnu-
        emulator="qemu-system-aarch64 -M virt -cpu cortex-a53 -nic none"
        needed="qemu-system-aarch64 qemu-aarch64 aarch64-linux-gnu-gcc"
        packages="qemu-system-arm qemu-user gcc-aarch64-linux-gnu libc6-dev-arm64-cross"
        flags="-fno-pie -no-pie -T boards/cost/aarch64.ld boards/cost/aarch64.S boards/cost/aarch64.c" ;;
    riscv64)
        built=riscv64-linux
        prefix=riscv64-linux-gnu-
        emulator="qemu-system-riscv64 -M virt -bios none -nic none"
        needed="qemu-system-riscv64 qemu-riscv64 riscv64-linux-gnu-gcc"
        packages="qemu-system-misc qemu-user gcc-riscv64-linux-gnu libc6-dev-riscv64-cross"
        flags="-fno-pie -no-pie -march=rv64gc -mabi=lp64d -mcmodel=medany -T boards/bare/virt.ld boards/bare/riscv.S boards/bare/board.c" ;;
    cortex-m4)
        built=cortex-m4
        prefix=arm-none-eabi-
        emulator="qemu-system-arm -M mps2-an386"
        needed="qemu-system-arm arm-none-eabi-gcc"
        packages="qemu-system-arm gcc-arm-none-eabi libnewlib-arm-none-eabi"
        flags="-mcpu=cortex-m4 -mthumb -T boards/bare/mps2.ld boards/bare/cortex-m.S boards/bare/board.c" ;;
    esac
}

# missing: those of the needed commands that are not there
missing() { for command in $needed; do command -v "$command" > /dev/null || printf ' %s' "$command"; done; }

# there TARGET: whether its tools are there, or can be installed
there() {
    [ -n "$(missing)" ] || return 0
    if [ "$install" = true ]; then
        # shellcheck disable=SC2086
        { apt-get update && apt-get install -y --no-install-recommends $packages; } > $work/install.log 2>&1
        [ -n "$(missing)" ] || return 0
    fi
    echo "not measured: $1, for which$(missing) is missing: apt-get update && apt-get install -y $packages"
    return 1
}

# library: builds the archive unless it is newer than all that it is made from; another script may be linking with it
library() {
    archive=target/boards/$built/libbraid.a
    sh boards/module.sh || exit $?
    if [ ! -f "$archive" ] || [ -n "$(find target/boards/braid.bc boards/build.sh boards/kit.sh boards/*.awk -newer "$archive")" ]; then
        sh boards/build.sh "$built" || exit $?
    fi
}

# entry TARGET: the numbers on standard input, as 'number measure', become entries of the table
entry() { sed "s/^/$1 /" >> $work/entries; }

# measured TARGET: two runs of the program that measures, which must say the same
measured() {
    # The whole archive, so that all its code can be looked at.
    # shellcheck disable=SC2086
    "${prefix}gcc" -std=c99 -O2 -ffreestanding -fno-tree-loop-distribute-patterns -fno-stack-protector -nostdlib -static -Wl,-z,noexecstack,--build-id=none \
        -Iinclude -Iconformity -Iboards/bare -Iboards/cost $flags boards/cost/cost.c boards/cost/counter.c boards/cost/memory.c conformity/put.c \
        -Wl,--whole-archive "$archive" -Wl,--no-whole-archive -lgcc -o "$work/$1.elf" 2> "$work/$1.log" ||
        { cat "$work/$1.log" >&2; failure "$1: the program that measures was not built"; return; }
    for run in first second; do
        # shellcheck disable=SC2086
        $emulator -icount shift=0 -display none -monitor none -serial none -chardev stdio,id=out -semihosting-config enable=on,target=native,chardev=out \
            -kernel "$work/$1.elf" > "$work/$1.$run" || { failure "$1: the $run run failed: $(tail -n 1 "$work/$1.$run")"; return; }
    done
    cmp -s "$work/$1.first" "$work/$1.second" || failure "$1: two runs count differently: compare $work/$1.first and $work/$1.second"
    awk '$1 == "step" { printf "%.2f %s, %d moves%s: a step\n", ($7 - $8) / ($5 - $6 * $4), $2, $3, $2 == "compare" ? " each" : "" }
        $1 == "clear" { printf "%.0f clear the braid table of %d moves, workspace of %d bytes: the call\n", ($5 - $6) / $4, $2, $3 }' "$work/$1.first" |
        entry "$1"
    "${prefix}size" "$archive" | awk 'NR > 1 { text += $1 } END { print text " code and constants, bytes" }' | entry "$1"
}

# signs TARGET: each loop in which signs are turned has one branch, its own; the loop of a step must be among them
signs() {
    "${prefix}objdump" -d --no-show-raw-insn "$work/$1.elf" | awk -f boards/cost/signs.awk > "$work/$1.signs"
    grep -q '^engine::run::reversing+' "$work/$1.signs" ||
        failure "$1: no loop of engine::run::reversing turns a sign by an exclusive or with 128: look what push_inverse became, and at boards/cost/signs.awk"
    if grep -v 'conditional 1, other 0$' "$work/$1.signs" > "$work/$1.branches"; then
        cat "$work/$1.branches" >&2
        failure "$1: the loops above have more branches than their own"
    fi
    echo "$(wc -l < "$work/$1.signs") places in loops with one branch turn a sign" | sed "s/^/$1: /"
}

# stacked TARGET..: the most stack that a call takes with the vectors
stacked() {
    names=$(for target; do describe "$target"; echo "$built"; done)
    # shellcheck disable=SC2086
    sh boards/test.sh --small --calls 1000 $names > $work/test || failure "boards/test.sh failed, $work/test has what it said: $(tail -n 1 $work/test)"
    for target; do
        describe "$target"
        taken=$(sed -n "s/^$built[:,].* stack \([0-9]*\)\$/\1/p" $work/test | sort -n | tail -n 1)
        [ -n "$taken" ] || { failure "$target: boards/test.sh told no stack: $work/test has what it said"; continue; }
        echo "$taken stack that a call takes, bytes" | entry "$target"
    done
}

columns=
for target; do
    describe "$target"
    there "$target" || continue
    columns="$columns $target"
    library
    measured "$target"
    [ ! -f "$work/$target.elf" ] || signs "$target"
done
[ -n "$columns" ] || exit 0
# shellcheck disable=SC2086
[ $with_stack = false ] || stacked $columns
touch $work/entries
awk -v columns="${columns# }" '
    { target = $1; number = $2; sub(/^[^ ]+ [^ ]+ /, ""); if (!($0 in met)) { met[$0]; rows[++count] = $0 } found[$0, target] = number }
    END {
        split(columns, column, " ")
        head = "| measure |"
        rule = "|---|"
        for (k = 1; k in column; k++) { head = head " " column[k] " |"; rule = rule "---|" }
        print head "\n" rule
        for (i = 1; i <= count; i++) {
            line = "| " rows[i] " |"
            for (k = 1; k in column; k++) line = line " " ((rows[i], column[k]) in found ? found[rows[i], column[k]] : "not measured") " |"
            print line
        }
    }' $work/entries
[ $failed -eq 0 ]
