#!/bin/sh
# The conformity kit: its vectors are current, our library and the second implementation pass them, each wrong library fails by a case that names its fault, and
# a file that is not one of vectors fails. The last line is 'N passed, M failed'. Usage: tests/conformity.sh, with gcc and cargo.
cd "$(dirname "$0")/.." || exit 1
sh tests/library.sh || exit 1
library=target/staticlib/libbraid.a
strict="-std=c99 -O1 -Wall -Wextra -Werror -pedantic -Iinclude -Iconformity"
export CARGO_TARGET_DIR=target/second
work=$(mktemp -d) || exit 1
trap 'rm -rf "$work"' EXIT
passed=0
failed=0

# held LABEL STATUS LAST: the last run ended with this status, and its report with this line
held() {
    if [ "$status" -eq "$2" ] && [ "$(tail -n 1 "$work/report")" = "$3" ]; then
        passed=$((passed + 1))
    else
        failed=$((failed + 1))
        echo "failed: $1: status $status, and the report ends:"
        tail -n 3 "$work/report"
    fi
}

# THE VECTORS: current, and of the sizes promised
cargo run --release --offline --quiet --manifest-path tests/second/Cargo.toml -p second --bin vectors -- --check > "$work/report" 2>&1
status=$?
held "the vectors are current" 0 ""
cargo build --release --offline --quiet --manifest-path tests/second/Cargo.toml -p shell || exit 1
second=$CARGO_TARGET_DIR/release/libshell.a

sh conformity/table.sh | cmp - conformity/COVERED.md > "$work/report" 2>&1
status=$?
held "the table of what the vectors cover is current: sh conformity/table.sh > conformity/COVERED.md" 0 ""

# THE LIBRARIES THAT PASS
export CC=gcc CFLAGS="-O2 -Wall -Wextra -Werror -pedantic"
for name in examples vectors-small vectors; do
    file=conformity/$name.txt
    cases=$(sed -n 's/^end //p' $file)
    for judged in $library $second; do
        sh conformity/run.sh "$judged" $file > "$work/report"
        status=$?
        held "$name on $judged" 0 "$cases passed, 0 failed"
        if grep -q '^not run' "$work/report"; then failed=$((failed + 1)); echo "failed: a case of $name was not run"; fi
    done
done

# THE EXAMPLES: every call of the header has one, and the README shows a block of the file
for call in $(sed -n 's/^BRAID_CALL uint8_t braid_\([a-z_]*\)(.*/\1/p' include/braid.h); do
    if grep -q "^call $call\$" conformity/examples.txt; then passed=$((passed + 1)); else failed=$((failed + 1)); echo "failed: no example of $call"; fi
done
sed -n '/^```$/,/^```$/p' conformity/README.md | sed '1d;$d' > "$work/shown"
first=$(head -n 1 "$work/shown")
sed -n "/^$(printf '%s' "$first" | sed 's|[/.*]|.|g')\$/,/^\$/p" conformity/examples.txt | sed '$d' | cmp -s - "$work/shown"
status=$?
: > "$work/report"
held "the block that the README shows stands in the examples" 0 ""

# WRONG LIBRARIES
judging=
for part in $(sed -n 's/^parts="\(.*\)"$/\1/p' conformity/run.sh); do
    gcc $strict -c conformity/"$part".c -o "$work/$part.o" || exit 1
    judging="$judging $work/$part.o"
done
tried=0
# wrong NUMBER CALL TITLE: this wrong library of a call fails by the cases that name its fault in their title
wrong() {
    awk -v call="call $2" -v title="$3" '
        /^case / { block = ""; named = index($0, title) > 0 }
        /^braid vectors/ { print $0 "\n" }
        /^case /, /^$/ { block = block $0 "\n"; if ($0 == call) right = 1 }
        /^$/ { if (named && right) { printf "%s", block; count++ } named = right = 0 }
        END { print "end " count + 0 }' conformity/vectors.txt > "$work/named"
    gcc $strict -DWRONG="$1" -Wl,--wrap=braid_"$2" tests/wrong_library.c $judging $library -o "$work/wrong" || exit 1
    tried=$((tried + 1))
    "$work/wrong" "$work/named" > "$work/report"
    if [ $? -eq 1 ] && grep -q "^failed: $2, line [0-9]*, " "$work/report"; then
        passed=$((passed + 1))
    else
        failed=$((failed + 1))
        echo "failed: the wrong library $1 of $2 is not met by a case with the title: $3; the report ends:"
        tail -n 2 "$work/report"
    fi
}
gcc $strict -fsyntax-only tests/wrong_library.c || exit 1
while read -r number call title; do wrong "$number" "$call" "$title"; done <<'WRONG'
1 reverse the workspace is all zero after an answer
2 reverse no byte past the answer area is written
3 reverse the steps are counted one by one
4 reverse all four values are set
5 reverse D is read from the end of the back part
6 reverse bytes behind the answer are as found
7 left_reverse N stands in its own order
8 commit other numbers come before a short area
9 clear a broken cube rule has its triple
10 mirror_clear the mirror's cube rule is 17, not 9
11 compare the workspace is as found after 8
12 compare_signed a workspace too short for the set names the set
13 chain the listed chain leads from the first program to the second
14 chain the filling of a listed chain is zero
15 remainder the moves that are left stand in their order
16 check an entry that does not fit breaks the chain
17 unpack_table a weight is one more than its field
18 pack_program too many bytes come before a wrong one
19 bed totals have their high byte first
20 ways the area is all zero after 13
21 import a text is only read
22 tray a log's steps have their high byte first
23 tray more than 64 logs are 23, whatever follows
24 reverse the back move of an open pair comes first
25 reverse no memory beside the values is written
26 chain steps on equal moves are counted, and have no entry
27 reverse C(a,b) and C(b,a) are not exchanged
28 compare an open pair is different, not refused
29 clear one undefined side fails the cube rule
30 compare bytes behind a program come before its back move
31 enquire the length of N is told first, then that of D
32 compare weights are compared, and not lengths
33 compare a stop is no verdict
34 compare_signed the steps of both reversings are told
35 reverse an allowance that is one step short stops
36 reverse a workspace of just the longest word suffices
37 chain an area of just the chain's bytes suffices
38 import 4,095 moves are not too many
39 remainder none is told apart from no move left
40 tray a faulty log ends no tray
41 bed a number of moves beyond 65,535 means all of them
42 check the second program's length plays no part in 12
43 pack_table bytes behind a plain table are refused
44 ways the word with the lower number comes first
45 unpack_program a back move's byte has 128 more
46 mirror_clear no mirror comes before unequal weights
47 left_reverse a program's fault comes before a mirror that is missing
48 commit numbers are compared with all 64 bits
WRONG
status=0
: > "$work/report"
[ "$tried" -ge 30 ] || status=1
held "wrong libraries tried: $tried" 0 ""

# A runner with little memory: what it cannot run is told and counts neither way.
examples=conformity/examples.txt
cases=$(sed -n 's/^end //p' $examples)
gcc $strict -DRUNNER_CAPACITY=300 -c conformity/host.c -o "$work/small.o" || exit 1
gcc $(echo "$judging" | sed "s|$work/host.o|$work/small.o|") $library -o "$work/small" || exit 1
"$work/small" $examples > "$work/report"
status=$?
left=$(grep -c '^not run: ' "$work/report")
held "a runner with little memory" 0 "$((cases - left)) passed, 0 failed"
grep -x -q "$left not run" "$work/report"
status=$?
held "what was not run is told" 0 "$((cases - left)) passed, 0 failed"

# FILES THAT ARE NONE OF VECTORS
gcc $judging $library -o "$work/runner" || exit 1
# broken LABEL WHAT: the file made in $work/vectors is no file of vectors, for this reason
broken() {
    "$work/runner" "$work/vectors" > "$work/report"
    status=$?
    if [ $status -eq 1 ] && grep -q "^line [0-9]*: $2" "$work/report" && tail -n 1 "$work/report" | grep -q '^[0-9]* passed, 1 failed$'; then
        passed=$((passed + 1))
    else
        failed=$((failed + 1))
        echo "failed: $1 passes for a file of vectors, or for another reason; status $status:"
        grep '^line' "$work/report"
        tail -n 1 "$work/report"
    fi
}
# changed BEGINNING LINE: the examples, with another line in the place of the first one that begins so
changed() { awk -v begins="$1" -v line="$2" '!done && index($0, begins) == 1 { $0 = line; done = 1 } { print }' $examples > "$work/vectors"; }
: > "$work/vectors"
broken "an empty file" 'this is no file of vectors'
printf 'braid vectors 2\n\nend 0\n' > "$work/vectors"
broken "another format" 'this is no file of vectors'
printf 'braid vectors 1\n\nend 0\n' > "$work/vectors"
broken "a file with no case" 'the file has no case'
sed '$d' $examples > "$work/vectors"
broken "a file without its count" 'the file ends without its count'
sed "s/^end .*/end $((cases + 1))/" $examples > "$work/vectors"
broken "another count" 'the count of cases is not that of the file'
{ cat $examples; echo; } > "$work/vectors"
broken "something behind the count" 'something follows the count'
changed 'allowance ' 'allowances 5'
broken "an unknown key" 'another key stands here'
changed 'program ' 'program 0G'
broken "a digit that is none" 'a hexadecimal digit'
changed 'values ' 'values 1 2 3'
broken "three values" 'a space is missing'
changed 'call ' 'call reserve'
broken "a call that is none" 'there is no such call'
changed 'allowance ' 'allowance 65536'
broken "an allowance of more than 16 bits" 'an allowance is at most 65535'
changed 'workspace ' 'workspace 18446744073709551616'
broken "a number of more than 64 bits" 'a number has more than 64 bits'
changed 'memory ' 'memory 1'
broken "another memory than it says" 'the case before takes another number of bytes'
head -c 400 $examples > "$work/vectors"
broken "a file that is cut" ''
sh conformity/run.sh > "$work/report" 2> "$work/errors"
status=$?
held "no library named" 2 ""
sh conformity/run.sh $library "$work/missing" > "$work/report" 2> "$work/errors"
status=$?
held "no such file of vectors" 2 ""

echo "$passed passed, $failed failed"
[ "$failed" -eq 0 ]
