#!/bin/sh
# Random calls beside ours: our library against a copy of itself has no difference. Each of some wrong libraries is met by one; its seed shows it again, our
# library passes its vector, and the wrong one fails it. A run that misses an outcome fails, and bad usage ends with status 2. The last line is
# 'N passed, M failed'. Usage: tests/against.sh, with gcc, ld, objcopy and ar.
cd "$(dirname "$0")/.." || exit 1
sh tests/library.sh || exit 1
library=target/staticlib/libbraid.a
strict="-std=c99 -O1 -Wall -Wextra -Werror -pedantic -Iinclude"
work=$(mktemp -d) || exit 1
trap 'rm -rf "$work"' EXIT
passed=0
failed=0
export CC=gcc CFLAGS="-O1 -Wall -Wextra -Werror -pedantic" PARTS="$work/parts"
mkdir "$PARTS" || exit 1

# one LABEL STATUS: a test by its status; where it failed, what the last run wrote is shown
one() {
    if [ "$2" -eq 0 ]; then passed=$((passed + 1)); return; fi
    failed=$((failed + 1))
    echo "failed: $1; the run ended with status $status and wrote:"
    head -n 3 "$work/report"
    tail -n 2 "$work/report"
    tail -n 2 "$work/errors"
}

# against ARGUMENT..: a run; its status, its report and what it said beside it are kept
against() {
    sh conformity/against.sh "$@" > "$work/report" 2> "$work/errors"
    status=$?
}

# ended STATUS LAST: the run ended with this status, and its report with this line
ended() { [ "$status" -eq "$1" ] && [ "$(tail -n 1 "$work/report")" = "$2" ]; }

# OUR OWN LIBRARY
cp $library "$work/copy.a"
against "$work/copy.a" --calls 100000
ended 0 "100000 passed, 0 failed" && ! grep -q '^DIFFERENCE' "$work/report" && grep -q '^[0-9]* of [0-9]* outcomes not met$' "$work/report"
one "our library against a copy of itself" $?

# WRONG LIBRARIES
ld -r --whole-archive $library -o "$work/whole.o" || exit 1
# archive CALL NAME: makes wrong.a of wrong.o, which has this call, and of our library, whose own call gets this name
archive() {
    objcopy --redefine-sym braid_"$1"="$2" "$work/whole.o" "$work/real.o" || exit 1
    rm -f "$work/wrong.a"
    ar rc "$work/wrong.a" "$work/wrong.o" "$work/real.o" || exit 1
}
# wrong_library NUMBER: makes wrong.a, in which one call is the version of that number; it is in $call, and empty where there is no such version. What the
# compiler warns of in it is for tests/conformity.sh to see.
wrong_library() {
    gcc -std=c99 -O1 -w -Iinclude -DWRONG="$1" -c tests/wrong_library.c -o "$work/wrong.o" || exit 1
    call=$(nm "$work/wrong.o" | sed -n 's/.* T __wrap_braid_//p')
    if [ -n "$call" ]; then
        objcopy --redefine-sym __wrap_braid_"$call"=braid_"$call" "$work/wrong.o" || exit 1
        archive "$call" __real_braid_"$call"
    fi
}
# block: the vector that the last report has
block() { sed -n '/^case /,/^$/p' "$work/report"; }
# shown_again: the seed of the difference shows it again, and the wrong library fails its vector
shown_again() {
    first=$(head -n 1 "$work/report")
    block > "$work/block"
    against "$work/wrong.a" --seed "$(echo "$first" | sed 's/^DIFFERENCE in seed \([0-9]*\):.*/\1/')" --calls 1
    ended 1 "0 passed, 1 failed" && [ "$(head -n 1 "$work/report")" = "$first" ] && block | cmp -s - "$work/block"
    one "the seed of the wrong library $version shows its difference again" $?
    { printf 'braid vectors 1\n\n'; cat "$work/block"; echo 'end 1'; } > "$work/vectors"
    sh conformity/run.sh "$work/wrong.a" "$work/vectors" > "$work/report" 2> "$work/errors"
    status=$?
    ended 1 "0 passed, 1 failed"
    one "the wrong library $version fails the vector by which it was met" $?
}
printf 'braid vectors 1\n\n' > "$work/all"
version=1
wrong_library $version
while [ -n "$call" ]; do
    against "$work/wrong.a" --calls 100000
    [ "$status" -eq 1 ] && head -n 1 "$work/report" | grep -q "^DIFFERENCE in seed [0-9]*: $call: " && tail -n 1 "$work/report" | grep -q ' passed, 1 failed$'
    one "the wrong library $version of $call is met" $?
    block >> "$work/all"
    if [ $((version % 12)) -eq 1 ]; then shown_again; fi
    version=$((version + 1))
    wrong_library $version
done
echo "end $((version - 1))" >> "$work/all"
sh conformity/run.sh $library "$work/all" > "$work/report" 2> "$work/errors"
status=$?
ended 0 "$((version - 1)) passed, 0 failed"
one "our library passes the vectors by which the wrong ones were met" $?

# a library whose call does not return is met, too
printf '#include <stdlib.h>\nint braid_clear(void);\nint braid_clear(void)\n{\n    abort();\n}\n' > "$work/aborts.c"
gcc $strict -c "$work/aborts.c" -o "$work/wrong.o" || exit 1
archive clear right
against "$work/wrong.a" --calls 1000
[ "$status" -eq 1 ] && grep -q '^DIFFERENCE in seed [0-9]*: clear: their call did not return' "$work/report" && grep -q '^call clear$' "$work/report"
one "a call that does not return is met" $?

# OUTCOMES: a run that has to meet all of them fails where it does not. Behind the highest seed comes 0.
CFLAGS="$CFLAGS -DLONG_RUN=300" PARTS='' sh conformity/against.sh "$work/copy.a" --ours "$work/copy.a" --seed 18446744073709551615 --calls 300 \
    > "$work/report" 2> "$work/errors"
status=$?
missed=$(grep -c '^not met: ' "$work/report")
ended 1 "300 passed, $missed failed" && [ "$missed" -gt 0 ] && grep -q -x "$missed of 209 outcomes not met" "$work/report"
one "a run that misses outcomes fails" $?

# WHAT A BOARD NEEDS: no part but those of a host wants more of a library than memory that is moved, compared or filled
mkdir "$work/board" || exit 1
status=0
: > "$work/errors"
for file in $(grep -L '<stdio.h>' conformity/*.c); do
    gcc $strict -ffreestanding -c "$file" -o "$work/board/$(basename "$file" .c).o" || status=1
done
ld -r "$work"/board/*.o -o "$work/board.o" || status=1
nm -u "$work/board.o" | sed 's/.* //' | grep -v -x -e 'braid_[a-z_]*' -e 'put_byte' -e 'next_byte' -e 'mem[a-z]*' > "$work/report"
[ "$status" -eq 0 ] && ! [ -s "$work/report" ]
one "the parts for a board want nothing of the C library" $?
nm -g --defined-only "$work/board.o" | sed 's/.* //' | grep -v -e '^kit_' -e '^run_vectors$' -e '^make_call$' > "$work/report"
! [ -s "$work/report" ]
one "the names of these parts begin with kit_ (conformity/names.h)" $?

# BAD USAGE
# refused WHAT ARGUMENT..: this is bad usage, and this is said of it
refused() {
    what=$1
    shift
    against "$@"
    [ "$status" -eq 2 ] && ! [ -s "$work/report" ] && head -n 1 "$work/errors" | grep -q "$what"
    one "bad usage: $what" $?
}
refused 'no library is named'
refused 'there is no library' "$work/none.a"
refused 'there is no option --moves' $library --moves 3
refused 'two libraries are named' $library "$work/copy.a"
refused 'seed wants a value' $library --seed
refused 'seed wants a decimal number' $library --seed one
refused 'seed wants a decimal number' $library --seed -1
refused 'seed wants a decimal number' $library --seed 18446744073709551616
refused 'calls wants a decimal number from 1' $library --calls 0
refused "our library .* 'sh tests/library.sh'" $library --ours "$work/none.a"
export OBJCOPY="$work/none"
refused 'there is no .*none, with which' $library
unset OBJCOPY
echo 'int none;' > "$work/none.c"
gcc $strict -c "$work/none.c" -o "$work/none.o" || exit 1
ar rc "$work/empty.a" "$work/none.o" || exit 1
against "$work/empty.a" --calls 1
[ "$status" -eq 2 ] && grep -q '^the program was not built over ' "$work/errors"
one "a library without the calls" $?

echo "$passed passed, $failed failed"
[ "$failed" -eq 0 ]
