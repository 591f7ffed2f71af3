#!/bin/sh
# Runs the bench reader on the samples and compares what it writes byte for byte. Files whose reads fail are made by tests/reads.c (gcc).
# Usage: tests/reader.sh [READER]; where none is named, the one that `rt ci` built.
cd "$(dirname "$0")/.." || exit 1
reader=${1:-crates/reader/out/reader}
samples=samples
work=$(mktemp -d) || exit 1
trap 'rm -rf "$work"' EXIT
passed=0
failed=0

# hold LABEL: what the reader wrote, and what it wrote to standard error, are as expected
hold() {
    if cmp -s "$work/expected" "$work/written" && cmp -s "$work/expected_errors" "$work/errors"; then
        passed=$((passed + 1))
    else
        failed=$((failed + 1))
        echo "failed: $1; it wrote, and then to standard error:"
        cat "$work/written" "$work/errors"
    fi
}

# expect LABEL TEXT ARGUMENT..: the reader on these arguments writes exactly TEXT, a printf format, and nothing to standard error
expect() {
    label=$1
    printf "$2" > "$work/expected"
    : > "$work/expected_errors"
    shift 2
    "$reader" "$@" > "$work/written" 2> "$work/errors"
    hold "$label"
}

# files longer than any image: an image, then bytes up to past what the reader reads
{ cat $samples/braid3.table; head -c 5000 /dev/zero; } > "$work/long.table"
{ cat $samples/first.program; head -c 5000 /dev/zero; } > "$work/long.program"
head -c 4096 "$work/long.program" > "$work/full.program"
: > "$work/nothing"

five='moves 3\nprogram -3 1 -2 1 2\nnumerator 1 1 2 3\ndenominator 1 3 2\nsteps 5\n'
expect "the program of specification 2.4" "$five" $samples/braid3.table $samples/first.program
expect "a second program with a denominator" \
    'moves 3\nprogram -2 -3 -1 1 1 2 3\nnumerator 1 2 3\ndenominator 2 1\nsteps 7\n' \
    $samples/braid3.table $samples/second.program
expect "an empty program: labels alone on their lines" \
    'moves 3\nprogram\nnumerator\ndenominator\nsteps 0\n' \
    $samples/braid3.table $samples/empty.program
expect "two digits, and no numerator" \
    'moves 16\nprogram -16 -9 -10\nnumerator\ndenominator 10 9 16\nsteps 0\n' \
    $samples/open16.table $samples/letters16.program
expect "a table whose moves differ in weight" 'moves 2\nprogram -1 2\nnumerator 2 1\ndenominator 2\nsteps 1\n' \
    $samples/heavy2.table $samples/open2.program
expect "refusal 1: no table file" 'refused 1\n' "$work/missing.table" $samples/first.program
expect "refusal 1: an empty table file" 'refused 1\n' "$work/nothing" $samples/first.program
expect "refusal 1: a table that cannot be read" 'refused 1\n' "$work" $samples/first.program
expect "refusal 1: no arguments" 'refused 1\n'
expect "refusal 3: a table file longer than 4,096 bytes" 'refused 3\n' "$work/long.table" $samples/first.program
expect "refusal 4: no program file" 'refused 4\n' $samples/braid3.table "$work/missing.program"
other=$work/$(printf '\377').program
cp $samples/first.program "$other"
expect "refusal 4: a program file whose name is not UTF-8" 'refused 4\n' $samples/braid3.table "$other"
expect "refusal 4: one argument" 'refused 4\n' $samples/braid3.table
expect "refusal 6: a byte follows the program" 'refused 6\n' $samples/braid3.table $samples/tail.program
expect "refusal 6: a program file of 4,096 bytes" 'refused 6\n' $samples/braid3.table "$work/full.program"
expect "refusal 6: a program file longer than 4,096 bytes" 'refused 6\n' $samples/braid3.table "$work/long.program"
expect "refusal 10 with its pair" 'refused 10 1 2\n' $samples/open2.table $samples/open2.program
expect "refusal 12: a program that never ends" 'refused 12\n' $samples/endless3.table $samples/endless.program

# reads that give a few bytes each, or fail: READS has a character for each read, at most so many bytes, or x for one that fails. The first file is read to its
# end before the second, which takes a read more than its bytes need.
gcc -std=c11 -Wall -Wextra -Werror -pedantic -shared -fPIC tests/reads.c -o "$work/reads.so" || exit 1
# through LABEL READS TEXT: the reader on the first two samples, with such reads, writes exactly TEXT
through() {
    printf "$3" > "$work/expected"
    : > "$work/expected_errors"
    READS=$2 LD_PRELOAD="$work/reads.so" "$reader" $samples/braid3.table $samples/first.program > "$work/written" 2> "$work/errors"
    hold "$1"
}
through "files read byte by byte" 11111111111111 "$five"
through "refusal 1: the first read fails" x 'refused 1\n'
through "refusal 1: a table of which all is read before a read fails" 9x 'refused 1\n'
through "refusal 1: a table of which a part is read before a read fails" 31x 'refused 1\n'
through "refusal 4: a program whose first read fails" 99x 'refused 4\n'
through "refusal 4: a program of which all is read before a read fails" 999x 'refused 4\n'
through "refusal 4: a program of which a part is read before a read fails" 992x 'refused 4\n'

# a report that cannot be written: one line on standard error, with the reason
: > "$work/expected"
: > "$work/written"
echo 'the report was not written whole: No space left on device' > "$work/expected_errors"
"$reader" $samples/braid3.table $samples/first.program > /dev/full 2> "$work/errors"
hold "a full device"
echo 'the report was not written whole: Bad file descriptor' > "$work/expected_errors"
"$reader" $samples/braid3.table $samples/first.program >&- 2> "$work/errors"
hold "a closed standard output"
echo 'the report was not written whole: Broken pipe' > "$work/expected_errors"
{
    sleep 1
    "$reader" $samples/braid3.table $samples/first.program 2> "$work/errors"
} | :
hold "a pipe that nobody reads"

echo "$passed passed, $failed failed"
[ "$failed" -eq 0 ]
