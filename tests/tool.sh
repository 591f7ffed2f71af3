#!/bin/sh
# The bench tool: each command on the samples with its exact output and status, every refusal that a file can reach, wrong calls, damaged, empty, huge and
# missing files, a pipe that closes, a full disk, JSON read back by another program, the help texts' examples as they are written, and tables as text. The last
# line is 'N passed, M failed'. Usage: tests/tool.sh [TOOL], with cargo, and node for the JSON.
cd "$(dirname "$0")/.." || exit 1
if [ $# -eq 0 ]; then
    sh tool/build.sh || exit 1
    tool=$PWD/target/bin/braid
else
    tool=$1
fi
work=$(mktemp -d) || exit 1
trap 'rm -rf "$work"' EXIT
passed=0
failed=0

# count LABEL STATUS: one test by a status
count() {
    if [ "$2" -eq 0 ]; then passed=$((passed + 1)); else failed=$((failed + 1)); echo "failed: $1"; fi
}

# gives STATUS TEXT ARGUMENT..: the tool ends with this status and writes exactly TEXT, a printf format, to standard output
gives() {
    wanted=$1
    printf -- "$2" > "$work/expected"
    shift 2
    "$tool" "$@" > "$work/out" 2> "$work/err" < "$work/in"
    status=$?
    if [ $status -eq "$wanted" ] && cmp -s "$work/expected" "$work/out"; then
        passed=$((passed + 1))
    else
        failed=$((failed + 1))
        echo "failed: braid $*: status $status, and:"
        head -n 5 "$work/out"
        head -n 3 "$work/err"
    fi
}

# told TEXT: the last call wrote a line with this text to standard error
told() {
    grep -q -F -e "$1" "$work/err"
    count "standard error has: $1; it has: $(head -n 2 "$work/err")" $?
}

: > "$work/in"
t=samples/braid3.txt

# EACH COMMAND
gives 0 'verdict same\nsteps 5\n' compare $t '=1 2 1' '=2 1 2'
gives 1 'verdict different\nsteps 1\n' compare $t '=1' '=2'
gives 0 'verdict same\nsteps 4 1\n' compare --signed $t '=1 2 -1' '=-2 1 2'
gives 1 'verdict different\nsteps 2 2\n' compare $t '=1 -2' '=-2 1' --signed
gives 0 'verdict same\nsteps 5\n' --allowance 5 compare braid:3 '=1 2 1' '=2 1 2' --workspace 11
gives 0 'verdict same\nsteps 5\nentries 1\nword [1 2 1]\nword 2 1 2\n' chain $t '=1 2 1' '=2 1 2' -o "$work/chain"
printf '\000\001\000\000\040' | cmp -s - "$work/chain"
count "the chain's image" $?
gives 1 'verdict different\nsteps 1\n' chain $t '=1' '=2'
gives 0 'chain joins\n' check $t '=1 2 1' '=2 1 2' "$work/chain"
gives 1 'chain breaks\nentry 0\n' check $t '=2 1 2' '=1 2 1' "$work/chain"
gives 1 'chain ends elsewhere\n' check $t '=1 2 1' '=1 2 1' "$work/chain"
five='moves 3\nprogram -3 1 -2 1 2\nnumerator 1 1 2 3\ndenominator 1 3 2\nsteps 5\n'
gives 0 "$five" reverse samples/braid3.table samples/first.program
gives 0 "$five" reverse samples/braid3.txt '=-3 1 -2 1 2'
gives 0 'moves 3\nprogram\nnumerator\ndenominator\nsteps 0\n' reverse samples/braid3.table samples/empty.program
gives 0 'moves 3\nprogram 1 -2\nnumerator 2 1\ndenominator 1 2\nsteps 1\n' reverse --left $t '=1 -2'
gives 0 'table clears\n' clear $t
gives 0 'mirror clears\n' clear $t --mirror
gives 0 'remainder 1 2\nsteps 3\n' remainder $t '=2' '=1 2 1'
gives 1 'remainder none\nsteps 1\n' remainder $t '=1' '=2'
gives 0 'remainder\nsteps 5\n' remainder $t '=1 2 1' '=2 1 2'
gives 0 'way 1 2 1\nway 2 1 2\n' ways $t '=1 2 1'
gives 2 'refused 13\n' ways $t '=1 2 1' --answer 7
gives 0 'bobbins 4 1 2 3\ntotal 1 2 2\ntotal 1 3 0\ntotal 1 4 -1\ntotal 2 3 0\ntotal 2 4 1\ntotal 3 4 -1\n' bed braid:3 samples/first.program
gives 0 'bobbins 1 2 4 3\ntotal 1 2 0\ntotal 1 3 0\ntotal 1 4 0\ntotal 2 3 0\ntotal 2 4 0\ntotal 3 4 -1\n' bed braid:3 samples/first.program --at 1
gives 0 'allowance 5\nworkspace 11\n' needs $t '=1 2 1' '=2 1 2'
text='moves 3\nweights 1 1 1\n1 2 1 = 2 1 2\n1 3 = 3 1\n2 3 2 = 3 2 3\n'
gives 0 "$text" show samples/braid3.table
sum=$(sha256sum samples/braid3.table | cut -c1-16)
gives 0 "$text# weight check passes\n# cube check passes\n# mirror clears\n# set closes\n# clearing needs allowance 5, workspace 11\n# sha256 $sum\n" table $t
gives 0 '-3 1 -2 1 2\n' show samples/first.program --table $t
gives 0 '0 1 2\n' show "$work/chain" --table $t --chain
gives 0 'bytes 8\n' pack $t -o "$work/table"
cmp -s "$work/table" samples/braid3.table
count "the packed table" $?
gives 0 'bytes 4\n' pack '=-3 1 -2 1 2' --table $t -o "$work/program"
cmp -s "$work/program" samples/first.program
count "the packed program" $?
echo '0 1 2' > "$work/entries.txt"
gives 0 'bytes 5\n' pack "$work/entries.txt" --table $t --chain -o "$work/again"
cmp -s "$work/again" "$work/chain"
count "the packed chain" $?
gives 0 'bytes 20\n' unpack samples/braid3.table -o "$work/plain"
[ "$(od -An -tu1 "$work/plain" | tr -s ' \n' ' ')" = " 3 1 1 1 2 2 1 2 1 2 1 3 1 1 2 3 2 2 2 3 " ]
count "the plain table" $?
gives 0 'bytes 5\n' unpack samples/first.program --table $t -o "$work/plain"
[ "$(od -An -tu1 "$work/plain" | tr -s ' \n' ' ')" = " 131 1 130 1 2 " ]
count "the plain program" $?

# THE BENCH SHEET of document 01, what does not stand above
gives 0 'moves 3\nprogram -2 -3 -1 1 1 2 3\nnumerator 1 2 3\ndenominator 2 1\nsteps 7\n' reverse samples/braid3.table samples/second.program
gives 0 "$five" reverse samples/braid3.table samples/first.program --allowance 5
gives 2 'refused 11\n' reverse samples/braid3.table samples/first.program --allowance 4
gives 0 'verdict same\nsteps 0\n' compare braid:1 '=' '=()' --workspace 0
gives 1 'verdict different\nsteps 0\n' compare samples/open2.table '=1' '=2'
for allowance in 0 1 100 16382; do gives 2 'refused 11 1 2 3\n' clear samples/endless3.table --allowance $allowance; done
for allowance in 16383 65535; do gives 2 'refused 12 1 2 3\n' clear samples/endless3.table --allowance $allowance; done
gives 2 'refused 13\n' reverse samples/braid3.table samples/first.program --answer 6
gives 2 'refused 13\n' chain $t '=1 2 1' '=2 1 2' --answer 4
gives 2 'refused 13\n' remainder $t '=1' '=1 2 1' --answer 1
gives 2 'refused 13\n' bed braid:3 '=1' --answer 15
gives 2 'refused 13\n' pack $t -o "$work/none" --answer 7
gives 2 'refused 13\n' pack '=1' --table $t -o "$work/none" --answer 1
gives 2 'refused 13\n' unpack samples/braid3.table -o "$work/none" --answer 19
gives 2 'refused 13\n' unpack samples/first.program --table $t -o "$work/none" --answer 4
[ ! -e "$work/none" ]
count "what is refused is not written" $?
if [ -x crates/reader/out/reader ]; then
    # the reader's reports byte for byte, of every sample table with every sample program
    for table in samples/*.table; do
        for program in samples/*.program; do
            crates/reader/out/reader "$table" "$program" > "$work/expected"
            "$tool" reverse "$table" "$program" 2> /dev/null | cmp -s - "$work/expected"
            count "the reader's report of $table and $program" $?
        done
    done
else
    echo "not run: the reader's reports, for which crates/reader/out/reader is missing"
fi

# TRAY
gives 3 'same 12 samples/logs/tuesday.txt\nrefused 7 samples/logs/friday.txt\nunreadable none.program\n' tray $t samples/ordered.txt samples/logs/tuesday.txt \
    samples/logs/friday.txt none.program
told 'none.program cannot be read: '
told '1 same, 0 different, 1 refused, 1 unreadable'
gives 0 'same 12 samples/logs/tuesday.txt\n' tray $t samples/ordered.txt samples/logs/tuesday.txt
gives 1 "$(for log in samples/logs/*; do
    case $log in
    *friday*) echo "refused 7 $log" ;;
    *monday*) echo "same 30 $log" ;;
    *saturday*) echo "refused 19 $log" ;;
    *thursday*) echo "refused 4 $log" ;;
    *tuesday*) echo "same 12 $log" ;;
    *wednesday*) echo "different 12 $log" ;;
    esac
done)\n" tray $t samples/ordered.txt samples/logs
mkdir "$work/logs" "$work/logs/deeper"
touch "$work/logs/.hidden" "$work/logs/deeper/log"
for k in $(seq 1 300); do printf '\000\020' > "$work/logs/log$k"; done
"$tool" tray $t '=1' "$work/logs" > "$work/out" 2> "$work/err"
[ $? -eq 0 ] && [ "$(wc -l < "$work/out")" -eq 300 ] && [ "$(sed "s|.*/||" "$work/out")" = "$(ls "$work/logs" | grep -v deeper | LC_ALL=C sort)" ]
count "300 logs of a folder, by the bytes of their names" $?
grep -q '^300 same, 0 different, 0 refused, 0 unreadable$' "$work/err"
count "their counts" $?

# REFUSALS, each with what stands there
printf '\040\004\121\043\011\020\100' > "$work/k.table"
gives 2 'refused 9 1 2 3\n' tray "$work/k.table" '=1' '=1'
gives 2 'refused 9 1 2 3\n' clear "$work/k.table"
told '(1\2)\(1\3) is 1, (2\1)\(2\3) is empty'
printf 'moves 2\n1 2 1 = 2 2\n' > "$work/u.txt"
gives 2 'refused 8 1 2\n' compare "$work/u.txt" '=1' '=1'
told '1 2 1 weighs 3, 2 2 weighs 2'
gives 2 'refused 10 1 2\n' reverse samples/open2.table samples/open2.program
told '-1 2 is met after 0 steps'
gives 2 'refused 10 1 2\n' reverse samples/open2.table '=-1 1 -1 2'
told 'is met after 1 steps'
gives 2 'refused 10 2 1\n' reverse --left samples/open2.table '=1 2 -2 -2'
told '1 -2 is met after 1 steps from the finished end'
gives 2 'refused 11\n' reverse $t '=-3 1 -2 1 2' --allowance 4
gives 2 'refused 12\n' reverse $t '=-3 1 -2 1 2' --workspace 8
gives 2 'refused 11 1 2 3\n' clear $t --allowance 4
: > "$work/empty"
gives 2 'refused 1\n' clear "$work/empty"
told "$work/empty: the table's bytes end too early"
printf '\040\004\260' > "$work/field.table"
gives 2 'refused 2\n' clear "$work/field.table"
{ cat samples/braid3.table; echo; } > "$work/tail.table"
gives 2 'refused 3\n' clear "$work/tail.table"
gives 2 'refused 4\n' compare $t '=1' "$work/empty"
told "$work/empty: the bytes of a program or chain end too early"
printf '\000\066' > "$work/field.program"
gives 2 'refused 5\n' compare $t "$work/field.program" '=1'
told "$work/field.program: "
gives 2 'refused 6\n' reverse $t samples/tail.program
gives 2 'refused 7\n' compare $t '=1' '=1 -1'
told '=1 -1: there is a back move'
gives 2 'refused 15\n' bed samples/open2.table '=1'
printf 'moves 2\n1 2 = 2 2\n' > "$work/v.txt"
gives 2 'refused 16 1 2\n' reverse --left "$work/v.txt" '=1'
told 'the relation 1 2 = 2 2 offends'
printf 'moves 3\n1 3 = 2 1\n1 2 = 3 3\n' > "$work/g.txt"
gives 2 'refused 17 1 3 2\n' clear --mirror "$work/g.txt"
gives 2 'refused 21 1 2\n' compare --signed samples/open2.table '=1' '=1'
gives 2 'refused 22\n' compare --signed braid:4 '=1' '=1'
gives 2 'refused 19\n' reverse $t '=1  2'
told "=1  2:1:3: the text is no pattern: ' ' cannot stand here"
gives 2 'refused 19\n' reverse $t '=(1 2'
told '=(1 2:1:5: the text is no pattern: the text ends'
gives 2 'refused 5\n' reverse $t '=1 2^9 4^0'
told '=1 2^9 4^0:1:7: '
gives 2 'refused 20\n' reverse $t '=1 (1^99)^99'
told '=1 (1^99)^99:1:'
printf '1 2 1\r\n' > "$work/crlf.txt"
gives 0 'verdict same\nsteps 5\n' compare $t "$work/crlf.txt" '=2 1 2'
printf '1 2 1\n\n' > "$work/two.txt"
gives 2 'refused 19\n' compare $t "$work/two.txt" '=2 1 2'
told 'two.txt:1:6: '
head -c 3000000 /dev/zero > "$work/huge"
gives 2 'refused 3\n' clear "$work/huge"
gives 2 'refused 6\n' compare $t '=1' "$work/huge"

# WRONG CALLS
wrong() {
    text=$1
    shift
    gives 3 '' "$@"
    told "$text"
}
wrong "a command is missing: 'braid --help' has all"
wrong "there is no command 'compere': the commands are compare, tray, " compere
wrong 'there is no option --fast' clear --fast $t
wrong '--left is no option of clear' clear --left $t
wrong 'compare wants TABLE, FIRST, SECOND, and 1 are given' compare $t
wrong 'clear wants TABLE, and 2 are given' clear $t $t
wrong '--allowance wants a number from 0 to 65535' clear $t --allowance 65536
wrong "--workspace wants a number from 0 to 1073741824, and not '-1'" clear $t --workspace -1
wrong '--allowance wants a value behind it' clear $t --allowance
wrong '--at stands twice' bed $t '=1' --at 1 --at 2
wrong 'none.table cannot be read: ' clear none.table
wrong 'samples cannot be read: ' clear samples
wrong 'standard input stands twice' compare $t - -
wrong "there is none of '17'" clear braid:17
wrong "there is none of '0'" clear braid:0
wrong '--chain wants --table' show --chain samples/first.program
wrong '-o is missing' pack $t
wrong '/nowhere/image cannot be written: ' pack $t -o /nowhere/image

# STANDARD INPUT, PIPES AND FULL DISKS
cp samples/first.program "$work/in"
gives 0 "$five" reverse $t -
cp samples/braid3.table "$work/in"
gives 0 'table clears\n' clear -
: > "$work/in"
"$tool" ways braid:9 '=(1 2 3 4 5 6 7 8)^2' 2> "$work/err" | head -n 1 > "$work/out"
[ ! -s "$work/err" ] && [ "$(wc -l < "$work/out")" -eq 1 ]
count "a pipe that closes" $?
"$tool" clear $t > /dev/full 2> "$work/err"
[ $? -eq 3 ] && grep -q 'standard output cannot be written' "$work/err"
count "a full disk" $?

# HELP AND VERSION
gives 0 "$("$tool" --help)\n" -h
"$tool" --version | grep -q "^braid [0-9.]*, library and specification $(sed -n 's/^Version \([0-9.]*\), .*/\1/p' docs/SPECIFICATION.md)\$"
count "the version" $?
for command in $("$tool" --help | sed -n 's/^  braid \([a-z]*\) .*/\1/p'); do
    example=$("$tool" "$command" --help | sed -n 's/^For example: braid //p')
    eval "\"$tool\" $example" > "$work/out" 2> "$work/err"
    status=$?
    [ -n "$example" ] && { [ $status -eq 0 ] || { [ "$command" = tray ] && [ $status -eq 1 ]; }; }
    count "the example of $command: status $status: $(head -n 1 "$work/err")" $?
done

# JSON, read back by another program
if command -v node > /dev/null; then
    # object EXPRESSION ARGUMENT..: the object that the tool writes makes this expression of `o` true
    object() {
        expression=$1
        shift
        "$tool" "$@" --json 2> /dev/null | node -e '
            const o = JSON.parse(require("fs").readFileSync(0, "utf8"));
            process.exit(eval(process.argv[1]) ? 0 : 1)' "$expression"
        count "the object of braid $*: $expression" $?
    }
    object 'o.verdict === "same" && o.steps === 5' compare $t '=1 2 1' '=2 1 2'
    object 'o.steps.join() === "4,1"' compare --signed $t '=1 2 -1' '=-2 1 2'
    object 'o.program.join() === "-3,1,-2,1,2" && o.denominator.join() === "1,3,2"' reverse $t samples/first.program
    object 'o.word.length === 2 && o.entry[0].join() === "0,1,2"' chain $t '=1 2 1' '=2 1 2'
    object 'o.refused === 9 && o.place === "triple" && o.moves.join() === "1,2,3" && o.text.includes("cube")' clear "$work/k.table"
    object 'o.moves === 3 && o.sides.length === 6 && o["cube check"] === "passes"' table $t
    object 'o.way.length === 2' ways $t '=1 2 1'
    object 'o.total[2].join() === "1,4,-1"' bed braid:3 samples/first.program
    object 'o.remainder === "none"' remainder $t '=1' '=2'
    object 'o.log === "samples/logs/tuesday.txt" && o.answer === "same" && o.steps === 12' tray $t samples/ordered.txt samples/logs/tuesday.txt
else
    echo "not run: JSON read back, for which node is missing"
fi

# TABLES AS TEXT
for file in samples/tables/good/*.txt; do
    "$tool" pack "$file" -o "$work/one" > /dev/null && "$tool" show "$work/one" > "$work/shown.txt" &&
        "$tool" pack "$work/shown.txt" -o "$work/two" > /dev/null &&
        cmp -s "$work/one" "$work/two" && "$tool" table "$work/one" | grep -v '^#' | cmp -s - "$work/shown.txt"
    count "text to image to text of $file" $?
done
for file in samples/tables/bad/*.txt; do
    "$tool" clear "$file" > "$work/out" 2> "$work/err"
    status=$?
    sed "s|^|$file:|" "${file%.txt}.errors" | cmp -s - "$work/err"
    [ $? -eq 0 ] && [ $status -eq 3 ] && [ ! -s "$work/out" ]
    count "what is told of $file: $(diff "$work/err" "${file%.txt}.errors" | head -n 2)" $?
done

echo "$passed passed, $failed failed"
[ "$failed" -eq 0 ]
