#!/bin/sh
# Builds the library for other processors and runs it there under emulators: the conformity vectors, with the stack of each call measured, and a stream of
# random calls that must be the one of x86-64. The last line is 'N passed, M failed'.
# Usage: sh boards/test.sh [--gate] [--install] [--small] [--calls N] [TARGET..], all targets where none is named.
#   --gate     on a kit that these scripts do not know nothing is run, which a line tells, and nothing is counted
#   --install  installs the emulators and compilers that are missing, from Debian's packages; so does CI=true in the environment
#   --small    runs conformity/vectors-small.txt, and not conformity/vectors.txt
#   --calls N  random calls a target; 100000 where it is not given
# A target whose tools are missing is named, with the line that would install them, and counts neither way.
# Exit status: 0 nothing failed; 1 something did; 2 bad usage, or the kit is not as expected.
cd "$(dirname "$0")/.." || exit 2
script=boards/test.sh
if [ "$1" = --gate ]; then
    shift
    told=$( (. boards/kit.sh) 2>&1) || { echo "not run: the boards: $told"; echo "0 passed, 0 failed"; exit 0; }
fi
. boards/kit.sh
vectors=conformity/vectors.txt
calls=100000
install=${CI:-false}
while [ $# -gt 0 ]; do
    case $1 in
    --install) install=true ;;
    --small) vectors=conformity/vectors-small.txt ;;
    --calls)
        shift
        calls=$1
        case $calls in '' | *[!0-9]*) fail "--calls wants a number, and not '$calls'" ;; esac ;;
    -*) fail "there is no option $1" ;;
    *) break ;;
    esac
    shift
done
all=$(sh boards/build.sh --list)
[ $# -gt 0 ] || set -- $all
for target; do
    echo "$all" | grep -q -x "$target" || fail "there is no target $target: the targets are $(echo $all)"
done
seed=20261117
cases=$(sed -n 's/^end //p' $vectors)
passed=0
failed=0
mkdir -p target/boards
work=$(mktemp -d target/boards/run.XXXXXX) || exit 2
trap 'rm -rf "$work"' EXIT
# A copy, so that one file is run on every target.
cp $vectors $work/vectors.txt
vectors=$work/vectors.txt
judging=$(sed -n 's/^parts="\(.*\)"$/\1/p' conformity/run.sh | sed 's/ host$//')
drawing=$(sed -n 's/^drawing="\(.*\)"$/\1/p' conformity/against.sh)
shared="call place outcome chain put make_call"
include="-Iinclude -Iconformity -Iboards"
wrapped="-Wl,--wrap=make_call,--wrap=run_vectors"

# one LABEL STATUS: a test by its exit status
one() {
    if [ "$2" -eq 0 ]; then passed=$((passed + 1)); else failed=$((failed + 1)); echo "failed: $1"; fi
}

# tools_of TARGET PACKAGES COMMAND..: whether the commands are there, or can be installed
tools_of() {
    target=$1
    packages=$2
    shift 2
    missing=
    for command; do command -v "$command" > /dev/null || missing="$missing $command"; done
    [ -n "$missing" ] || return 0
    if [ "$install" = true ]; then
        { apt-get update && apt-get install -y --no-install-recommends $packages; } > $work/install.log 2>&1
        missing=
        for command; do command -v "$command" > /dev/null || missing="$missing $command"; done
        [ -n "$missing" ] || return 0
    fi
    echo "not run: $target, for which$missing is missing: apt-get update && apt-get install -y $packages"
    return 1
}

# code ARCHIVE: its functions by name, with their instructions and what they refer to
code() {
    objdump -dr --no-show-raw-insn "$1" |
        awk '/^[0-9a-f]+ <.*>:$/ { print $2; next } /^[ \t]/ { sub(/^[ \t]*[0-9a-f]+:[ \t]*/, ""); print "  " $0 }'
}

# The module compiled for x86-64 as for the other targets gives the instructions of the archive that rt makes, function by function.
same_code() {
    code target/boards/libbraid.a > $work/code.rt
    code target/boards/x86_64-linux/libbraid.a > $work/code.here
    functions=$(grep -c '^<.*>:$' $work/code.rt)
    [ "$functions" -gt 0 ] && cmp -s $work/code.rt $work/code.here
    one "x86_64-linux: the code that rt lib makes, $functions functions" $?
}

# sources LIST FOLDER: the C files of parts
sources() { for part in $1; do echo "$2/$part.c"; done; }

# judged TARGET: the report of a run in $work/report
judged() {
    left=$(grep -c '^not run: ' $work/report)
    grep -x -q "$((cases - left)) passed, 0 failed" $work/report
    one "$1: vectors: $(grep ' passed, ' $work/report)" $?
    taken=$(sed -n 's/^stack //p' $work/report)
    [ -n "$taken" ] && [ "$taken" -le "$(sed -n 's/.*BRAID_STACK = \([0-9]*\).*/\1/p' include/braid.h)" ]
    one "$1: the stack that BRAID_STACK states, $taken taken" $?
    echo "$1: $(grep ' passed, ' $work/report), $left not run, stack $taken"
}

# compared TARGET: the stream in $work/stream against that of x86-64
compared() {
    cmp -s $work/stream $work/stream.x86_64
    one "$1: the stream of $calls random calls is that of x86-64" $?
}

# on_linux TARGET COMPILER RUN: a target under Linux, native or by qemu-user; callers are compiled without and with optimization
on_linux() {
    for level in -O0 -O2; do
        # shellcheck disable=SC2046
        "$2" -static -std=c99 $level $include $wrapped $(sources "$judging" conformity) conformity/host.c boards/stack.c \
            target/boards/"$1"/libbraid.a -o $work/vectors || { one "$1: the runner is built with $level" 1; return; }
        $3 $work/vectors $vectors > $work/report
        judged "$1, callers compiled with $level"
    done
    # shellcheck disable=SC2046
    "$2" -static -std=c99 -O2 $include $(sources "$shared $drawing" conformity) boards/stream.c boards/stream_host.c target/boards/"$1"/libbraid.a \
        -o $work/random || { one "$1: the stream is built" 1; return; }
    $3 $work/random $seed "$calls" > $work/stream
    [ "$1" != x86_64-linux ] || cp $work/stream $work/stream.x86_64
    compared "$1"
}

# on_board TARGET COMPILER START SCRIPT EMULATOR CAPACITY [FLAGS]: a bare board by qemu-system
on_board() {
    name=$1
    compiler=$2
    start=$3
    script_of_board=$4
    emulator=$5
    capacity=$6
    shift 6
    common="-std=gnu99 -Os -ffunction-sections -Wl,--gc-sections,-z,noexecstack -nostartfiles $include -Iboards/bare -T $script_of_board"
    # shellcheck disable=SC2046,SC2086
    $compiler "$@" $common -DRUNNER_CAPACITY="$capacity" -DBOARD_FILE="\"$vectors\"" $wrapped $start boards/bare/board.c boards/bare/vectors.c \
        boards/stack.c $(sources "$judging" conformity) target/boards/"$name"/libbraid.a -o $work/vectors.elf ||
        { one "$name: the runner is built" 1; return; }
    $emulator $work/vectors.elf > $work/report
    judged "$name"
    # shellcheck disable=SC2046,SC2086
    $compiler "$@" $common -DSTREAM_SEED=$seed -DSTREAM_CALLS="$calls" $start boards/bare/board.c boards/bare/stream.c boards/stream.c \
        $(sources "$shared $drawing" conformity) target/boards/"$name"/libbraid.a -o $work/stream.elf || { one "$name: the stream is built" 1; return; }
    $emulator $work/stream.elf > $work/stream
    compared "$name"
}

# on_microbit: the library for the M0+ on a board with 16 KB of memory for data, and those of the vectors that fit: the calls that take more stack than it has
# are left out, and cases that take more memory are told as not run
on_microbit() {
    awk '/^case / { block = ""; fits = 1 }
        /^call (reverse|left_reverse|commit|clear|mirror_clear|compare_signed)$/ { fits = 0 }
        { block = block $0 "\n" }
        /^$/ { if (fits) { printf "%s", block; count++ } block = "" }
        /^braid vectors/ { print $0 "\n"; block = "" ; fits = 0 }
        END { print "end " count }' "$vectors" > $work/fitting.txt
    cases=$(sed -n 's/^end //p' $work/fitting.txt)
    # shellcheck disable=SC2046
    arm-none-eabi-gcc -mcpu=cortex-m0plus -mthumb -std=gnu99 -Os -ffunction-sections -Wl,--gc-sections,-z,noexecstack -nostartfiles $include -Iboards/bare \
        -T boards/bare/microbit.ld -DRUNNER_CAPACITY=3000 -DRUNNER_COUNT=uint16_t -DSTACK_SPAN=7600 -DBOARD_FILE="\"$work/fitting.txt\"" $wrapped \
        boards/bare/cortex-m.S boards/bare/board.c boards/bare/vectors.c boards/stack.c $(sources "$judging" conformity) \
        target/boards/cortex-m0plus/libbraid.a -o $work/microbit.elf || { one "microbit: the runner is built" 1; return; }
    # shellcheck disable=SC2086
    qemu-system-arm -M microbit $quiet -kernel $work/microbit.elf > $work/report
    judged "cortex-m0plus on a microbit"
    cases=$(sed -n 's/^end //p' "$vectors")
}

# in_node: WebAssembly, the kit's own compiler for the callers too
in_node() {
    objects=
    for file in $(sources "$judging $drawing" conformity) boards/stack.c boards/stream.c boards/wasm/main.c; do
        object=$work/$(basename "$file" .c).$(dirname "$file" | tr / -).o
        "$tools/clang" --target=wasm32-unknown-unknown -std=c99 -O2 -ffreestanding -mbulk-memory -Iboards/wasm $include -DRUNNER_CAPACITY=1048576 \
            -c "$file" -o "$object" || { one "wasm32: the runner is built" 1; return; }
        objects="$objects $object"
    done
    # shellcheck disable=SC2086
    wasm_ld --no-entry -z stack-size=262144 --wrap=make_call --wrap=run_vectors --allow-undefined --export=vectors --export=stream \
        $objects target/boards/wasm32/libbraid.a -o $work/runner.wasm || { one "wasm32: the runner is linked" 1; return; }
    node boards/wasm/run.mjs $work/runner.wasm vectors $vectors > $work/report
    judged wasm32
    node boards/wasm/run.mjs $work/runner.wasm stream $seed "$calls" > $work/stream
    compared wasm32
}

# run TARGET
run() {
    # What a board writes by semihosting goes to standard output.
    quiet="-display none -monitor none -serial none -chardev stdio,id=out -semihosting-config enable=on,target=native,chardev=out"
    case $1 in
    x86_64-linux)
        same_code
        on_linux "$1" gcc "" ;;
    aarch64-linux)
        tools_of "$1" "qemu-user gcc-aarch64-linux-gnu libc6-dev-arm64-cross" qemu-aarch64 aarch64-linux-gnu-gcc &&
            on_linux "$1" aarch64-linux-gnu-gcc qemu-aarch64 ;;
    riscv64-linux)
        tools_of "$1" "qemu-user gcc-riscv64-linux-gnu libc6-dev-riscv64-cross" qemu-riscv64 riscv64-linux-gnu-gcc &&
            on_linux "$1" riscv64-linux-gnu-gcc qemu-riscv64 ;;
    armv7-linux)
        tools_of "$1" "qemu-user gcc-arm-linux-gnueabihf libc6-dev-armhf-cross" qemu-arm arm-linux-gnueabihf-gcc &&
            on_linux "$1" arm-linux-gnueabihf-gcc qemu-arm ;;
    cortex-m4)
        tools_of "$1" "qemu-system-arm gcc-arm-none-eabi libnewlib-arm-none-eabi" qemu-system-arm arm-none-eabi-gcc &&
            on_board "$1" arm-none-eabi-gcc boards/bare/cortex-m.S boards/bare/mps2.ld "qemu-system-arm -M mps2-an386 $quiet -kernel" 1048576 \
                -mcpu=cortex-m4 -mthumb ;;
    cortex-m0plus)
        tools_of "$1" "qemu-system-arm gcc-arm-none-eabi libnewlib-arm-none-eabi" qemu-system-arm arm-none-eabi-gcc &&
            on_board "$1" arm-none-eabi-gcc boards/bare/cortex-m.S boards/bare/mps2.ld "qemu-system-arm -M mps2-an385 $quiet -kernel" 1048576 \
                -mcpu=cortex-m0plus -mthumb -DTRAP_UNALIGNED && on_microbit ;;
    riscv32-none)
        tools_of "$1" "qemu-system-misc gcc-riscv64-unknown-elf picolibc-riscv64-unknown-elf" qemu-system-riscv32 riscv64-unknown-elf-gcc &&
            on_board "$1" riscv64-unknown-elf-gcc boards/bare/riscv.S boards/bare/virt.ld \
                "qemu-system-riscv32 -M virt -bios none $quiet -kernel" 1048576 -march=rv32imac -mabi=ilp32 \
                --specs=picolibc.specs ;;
    wasm32) tools_of "$1" nodejs node && in_node ;;
    esac
}

sh boards/build.sh x86_64-linux "$@" || exit $?
# The stream of x86-64 is what the others are held against.
# shellcheck disable=SC2046
gcc -std=c99 -O2 $include $(sources "$shared $drawing" conformity) boards/stream.c boards/stream_host.c target/boards/x86_64-linux/libbraid.a \
    -o $work/random ||
    fail "the stream of random calls was not built for x86-64" 1
$work/random $seed "$calls" > $work/stream.x86_64 || fail "the stream of random calls failed on x86-64: $(tail -n 1 $work/stream.x86_64)" 1
for target; do run "$target"; done
echo "$passed passed, $failed failed"
[ "$failed" -eq 0 ]
