#!/bin/sh
# Writes the library for other processors from its LLVM module (boards/module.sh): target/boards/TARGET/libbraid.a, and for wasm32 braid.wasm beside it.
# Usage: sh boards/build.sh [TARGET..], all targets where none is named; --list prints them.
# Exit status: 0 all are written; 1 the library is not proved or not built; 2 bad usage, or the kit is not as expected.
cd "$(dirname "$0")/.." || exit 2
script=boards/build.sh
all="x86_64-linux aarch64-linux riscv64-linux armv7-linux cortex-m4 cortex-m0plus riscv32-none wasm32"
[ "$1" != --list ] || { echo "$all" | tr ' ' '\n'; exit 0; }
. boards/kit.sh
[ $# -gt 0 ] || set -- $all
for target; do
    case " $all " in *" $target "*) ;; *) fail "there is no target $target: the targets are $all" ;; esac
done
sh boards/module.sh || exit $?
text=target/boards/braid.ll
"$tools/clang" --target=x86_64-unknown-linux-gnu -S -emit-llvm -O0 -Xclang -disable-llvm-passes -x ir target/boards/braid.bc -o $text ||
    fail "the kit's clang does not write the module as text"
calls=$(sed -n 's/^BRAID_CALL uint8_t \(braid_[a-z_]*\)(.*/\1/p' include/braid.h)

# flags TARGET: what the compiler is told of a target: of x86-64 what rt tells it. The small ones are made for size.
flags() {
    case $1 in
    x86_64-linux) cat target/boards/braid.flags ;;
    aarch64-linux) echo "--target=aarch64-unknown-linux-gnu -O3" ;;
    riscv64-linux) echo "--target=riscv64-unknown-linux-gnu -march=rv64gc -mabi=lp64d -O3" ;;
    armv7-linux) echo "--target=armv7-unknown-linux-gnueabihf -march=armv7-a -mfloat-abi=hard -mfpu=vfpv3-d16 -O3" ;;
    cortex-m4) echo "--target=thumbv7em-none-eabi -mcpu=cortex-m4 -mfloat-abi=soft -Os" ;;
    cortex-m0plus) echo "--target=thumbv6m-none-eabi -mcpu=cortex-m0plus -mfloat-abi=soft -Os" ;;
    riscv32-none) echo "--target=riscv32-unknown-none-elf -march=rv32imac -mabi=ilp32 -Os" ;;
    wasm32) echo "--target=wasm32-unknown-unknown -mbulk-memory -O3" ;;
    esac
}

for target; do
    out=target/boards/$target
    mkdir -p "$out"
    rm -f "$out"/*
    # The triple and the data layout are those that the compiler gives an empty program.
    # shellcheck disable=SC2046
    echo | "$tools/clang" $(flags "$target") -S -emit-llvm -x c - -o "$out/empty.ll" || fail "the kit's clang does not know $target"
    triple=$(sed -n 's/^target triple = "\(.*\)"$/\1/p' "$out/empty.ll")
    layout=$(sed -n 's/^target datalayout = "\(.*\)"$/\1/p' "$out/empty.ll")
    [ -n "$triple" ] && [ -n "$layout" ] || fail "the kit's clang names no triple or data layout for $target"
    awk -v triple="$triple" -v layout="$layout" -f boards/retarget.awk $text > "$out/braid.ll"
    [ "$(awk -f boards/extended.awk "$out/braid.ll")" = "$(echo "$calls" | wc -l)" ] ||
        fail "the module for $target is not as callers and pointers of this processor need it: awk -f boards/extended.awk $out/braid.ll names what is not"
    # shellcheck disable=SC2046
    "$tools/clang" $(flags "$target") -ffunction-sections -c -x ir "$out/braid.ll" -o "$out/braid.o" || fail "the module was not compiled for $target"
    "$tools/llvm-ar" rcs "$out/libbraid.a" "$out/braid.o" || fail "the archive for $target was not written"
    if [ "$target" = wasm32 ]; then
        # shellcheck disable=SC2046
        wasm_ld --no-entry -z stack-size=65536 --export=__heap_base $(echo "$calls" | sed 's/^/--export=/') "$out/braid.o" -o "$out/braid.wasm" ||
            fail "braid.wasm was not linked"
    fi
done
