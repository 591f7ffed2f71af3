#!/bin/sh
# The C interface: what the archive wants of a linker, the version that the specification names, the example of docs/SERVICES.md and a program that joins two
# programs, the header's sizes and stack, long texts, then each call from C and from C++, all compiled with the strictest warnings as errors. The last line is
# 'N passed, M failed' over all of it.
cd "$(dirname "$0")/.." || exit 1
sh tests/library.sh || exit 1
strict="-Wall -Wextra -Werror -pedantic -Iinclude"
library=target/staticlib/libbraid.a
passed=0
failed=0

# one NAME STATUS: a test by its exit status
one() {
    if [ "$2" -eq 0 ]; then passed=$((passed + 1)); else failed=$((failed + 1)); echo "failed: $1"; fi
}

# sheet NAME PROGRAM: runs a program and adds what its closing line says. A run without one, or with a status that it does not explain,
# counts as one more failure.
sheet() {
    language=$1
    "$2" > target/sheet.log
    status=$?
    set -- $(sed -n '$s/^\([0-9]*\) passed, \([0-9]*\) failed$/\1 \2/p' target/sheet.log)
    if [ $# -ne 2 ]; then
        cat target/sheet.log
        set -- 0 1
    else
        sed '$d' target/sheet.log
        [ "$status" -eq 0 ] || [ "$2" -gt 0 ] || set -- "$1" 1
    fi
    echo "$language: status $status, $1 held, $2 did not"
    passed=$((passed + $1))
    failed=$((failed + $2))
}

sed -n '/^```c$/,/^```$/p' docs/SERVICES.md | sed '1d;$d' > target/example.c
gcc -std=c11 $strict target/example.c $library -o target/example || exit 1
[ "$(target/example)" = "result 0, steps 5" ]
one "the example of docs/SERVICES.md" $?
gcc -std=c11 $strict tests/joined.c $library -o target/joined || exit 1
[ "$(target/joined)" = "same after 5 steps
a chain of 5 bytes joins them" ]
one "two programs packed, compared, joined by a chain that checks" $?

# The archive wants no other symbol, has no writable data, and defines just the calls that the header declares.
[ "$(nm -u $library | sed -n 's/^ *U //p' | sort -u | tr '\n' ' ')" = "memcpy memset " ]
one "symbols that the archive wants" $?
[ -z "$(nm $library | grep -E ' [bBdDC] ')" ]
one "no writable data" $?
nm -g $library | sed -n 's/^[0-9a-f]* T \(braid_.*\)/\1/p' | sort > target/defined
grep -o 'uint8_t braid_[a-z_]*(' include/braid.h | sed 's/uint8_t //; s/(//' | grep -v text | sort > target/declared
cmp target/defined target/declared
one "the calls that the header declares" $?
[ "$(sed -n 's/^#define BRAID_VERSION_M[A-Z]* //p' include/braid.h | paste -s -d . -)" = "$(sed -n 's/^Version \([0-9.]*\), .*/\1/p' docs/SPECIFICATION.md)" ]
one "the version that the specification names" $?
gcc -std=c11 $strict -Wl,-z,now tests/archive.c $library -o target/archive || exit 1
sheet "sizes, stack and long texts" target/archive
gcc -std=c11 $strict tests/calls.c $library -o target/calls_c || exit 1
g++ -std=c++17 $strict -x c++ tests/calls.c -x none $library -o target/calls_cpp || exit 1
sheet "each call from C" target/calls_c
sheet "each call from C++" target/calls_cpp

echo "$passed passed, $failed failed"
[ "$failed" -eq 0 ]
