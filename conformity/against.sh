#!/bin/sh
# Runs random calls of a library beside ours in one process, and reports the first difference by its seed, with the case as a vector that can be added to a
# file of them.
# Usage: sh conformity/against.sh LIBRARY.a [--ours LIBRARY.a] [--seed S] [--calls N]
# Where they are not named, ours is target/staticlib/libbraid.a, the seed is 1, and the calls are 1000000.
# Case k, from 0, has the seed S + k: --seed with the number that is reported and --calls 1 shows it again. A run of 1000000 calls or more fails where it misses
# an outcome that a call can have. It needs sh, awk, a C compiler (cc, or what CC names), ld and objcopy (or what LD and OBJCOPY name). Where PARTS names a
# directory, what is compiled, ours too, is kept there, and a run that finds it there takes it as it is: for several libraries in a row.
# The last line is 'N passed, M failed'.
# Exit status: 0 no difference; 1 a difference, or an outcome that was missed; 2 bad usage, or the program was not built.
judging="call place outcome chain put"
drawing="random families random_tables random_words random_texts image draw draw_programs draw_chains draw_trays draw_limits random_calls"
parts="$judging $drawing vector against"
here=$(cd "$(dirname "$0")" && pwd) || exit 2
library=
ours=$here/../target/staticlib/libbraid.a
seed=1
calls=1000000

bad() {
    echo "$1" >&2
    echo "usage: sh conformity/against.sh LIBRARY.a [--ours LIBRARY.a] [--seed S] [--calls N]" >&2
    exit 2
}

# number OPTION VALUE LEAST: the value is a decimal number from LEAST, 0 or 1, to 2^64 - 1
number() {
    awk -v value="$2" -v least="$3" 'BEGIN {
        most = "18446744073709551615"
        if (value !~ /^[0-9]+$/) exit 1
        sub(/^0+/, "", value)
        if (length(value) > length(most) || (length(value) == length(most) && (value "") > (most ""))) exit 1
        exit value == "" && least > 0
    }' || bad "$1 wants a decimal number from $3 to 18446744073709551615, and not '$2'"
}

while [ $# -gt 0 ]; do
    case $1 in
    --ours | --seed | --calls)
        [ $# -ge 2 ] || bad "$1 wants a value behind it"
        case $1 in
        --ours) ours=$2 ;;
        --seed) number "$1" "$2" 0; seed=$2 ;;
        --calls) number "$1" "$2" 1; calls=$2 ;;
        esac
        shift ;;
    -*) bad "there is no option $1" ;;
    *)
        [ -z "$library" ] || bad "two libraries are named, $library and $1: name the one that is to be tried"
        library=$1 ;;
    esac
    shift
done
[ -n "$library" ] || bad "no library is named: name the static library that is to be tried"
[ -f "$library" ] || bad "there is no library $library: name the static library that is to be tried"
[ -f "$ours" ] || bad "our library $ours is not there: build it with 'sh tests/library.sh', or name it with --ours"
for tool in "${LD:-ld}" "${OBJCOPY:-objcopy}"; do
    command -v "$tool" > /dev/null || bad "there is no $tool, with which our calls are renamed: install it, or name another with LD or OBJCOPY"
done

work=$(mktemp -d) || exit 2
trap 'rm -rf "$work"' EXIT
trap 'exit 1' INT TERM
not_built() {
    echo "the program was not built over $library: $1" >&2
    exit 2
}

# Our calls, and what makes them, get other names. All else of our library is hidden, so that the other library may have the same names.
rename_ours() {
    sed -n 's/^BRAID_CALL uint8_t \(braid_[a-z_]*\)(.*/\1 ours_\1/p' "$here/../include/braid.h" > "$kept/names"
    sed 's/.* //' "$kept/names" > "$kept/shown"
    echo "make_call ours_make_call" >> "$kept/names"
    "${LD:-ld}" -r --whole-archive "$ours" -o "$kept/whole.o" || not_built "ld says above what is wrong with $ours"
    "${OBJCOPY:-objcopy}" --redefine-syms="$kept/names" "$kept/whole.o" "$kept/renamed.o" &&
        "${OBJCOPY:-objcopy}" --keep-global-symbols="$kept/shown" "$kept/renamed.o" "$kept/ours.o" &&
        "${OBJCOPY:-objcopy}" --redefine-syms="$kept/names" "$kept/make_call.o" "$kept/ours_make_call.o" ||
        not_built "objcopy says above what is wrong with $ours"
}
compile() {
    for part in $parts make_call; do
        # shellcheck disable=SC2086
        ${CC:-cc} -std=c99 ${CFLAGS:--O2} -I"$here/../include" -c "$here/$part.c" -o "$kept/$part.o" ||
            not_built "the compiler says above what is wrong with $part.c"
    done
}
kept=${PARTS:-$work}
if ! [ -f "$kept/ours_make_call.o" ]; then
    compile
    rename_ours
fi
set --
for part in $parts make_call ours_make_call ours; do set -- "$@" "$kept/$part.o"; done
# shellcheck disable=SC2086
${CC:-cc} ${CFLAGS:--O2} "$@" "$library" -o "$work/against" || not_built "the linker says above what is missing"
"$work/against" "$seed" "$calls"
status=$?
if [ $status -gt 2 ]; then
    echo "the program ended with status $status and without a report: a call of $library did not return" >&2
    echo "0 passed, 1 failed"
    status=1
fi
exit $status
