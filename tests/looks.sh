#!/bin/sh
# Looks that no proof takes, at the tree and at what tests/tried.sh left in target/; then a case for each look in which it must find the fault.
# Usage: tests/looks.sh, after `rt ci` and tests/tried.sh. The last line is 'N passed, M failed'.
cd "$(dirname "$0")/.." || exit 1
top=$PWD
passed=0
failed=0

# The heads of all functions that are public, one to a line: FILE NAME HEAD.
heads() {
    for file in "$1"/crates/*/src/*.rt; do
        [ -f "$file" ] && awk -v file="${file#"$1"/}" '
            { line = $0; sub(/\/\/.*/, "", line) }
            !open && line ~ /^[ \t]*pub (extern "C" )?fn / { open = 1; head = ""; name = line; sub(/.*fn /, "", name); sub(/[^A-Za-z0-9_].*/, "", name) }
            open { head = head " " line }
            open && line ~ /\{[ \t]*$/ && line !~ /(requires|ensures)[^}]*\{[ \t]*$/ { print file, name, head; open = 0 }
        ' "$file"
    done
}

# Every public function promises something of what it returns or leaves.
promises() { heads "$1" | grep -v ' ensures ' | cut -d' ' -f1,2; }

# A service, as docs/SERVICES.md names it, and a function for C ask nothing of their caller.
asks_nothing() {
    sed -n 's/^| [^|]* | `\([a-z_]*\)::\([a-z_]*\)::\([a-z_]*\)` |.*/crates\/\1\/src\/\2.rt \3/p' "$1/docs/SERVICES.md" > "$2/services"
    heads "$1" > "$2/heads"
    [ "$(wc -l < "$2/services")" -ge 9 ] || echo "docs/SERVICES.md names fewer than nine services"
    while read -r file name; do
        grep -q "^$file $name " "$2/heads" || echo "$file $name: named in docs/SERVICES.md and not there"
        grep "^$file $name .* requires " "$2/heads" | cut -d' ' -f1,2
    done < "$2/services"
    grep ' extern "C" fn ' "$2/heads" | grep ' requires ' | cut -d' ' -f1,2
}

# No crate assumes anything, but for the programs, which assume the contracts of the system calls that they make.
axioms() {
    awk '/^[a-z]/ { sub(/[ :].*/, ""); print }' "$1/crates.txt" | while read -r crate; do
        out="$1/target/log/$crate.out"
        grep -q '^logic=proved ' "$out" 2> /dev/null || echo "$crate: not proved"
        case $crate in
            reader | bench) grep '^axioms ' "$out" | grep -v -e ': none reached of ' -e '^axioms libc: ' -e '^axioms os: ' ;;
            *) grep '^logic=proved .*axioms=' "$out" | sed "s/^/$crate: /" ;;
        esac
    done
}

# error LOG EDIT [FILE NEED]: the first error of a log, or the first at this need, that does not only follow from another, with the lines that go on with it.
# Of a function, or a goal of it, that no file answers it is what is said of the function that NEED names.
error() {
    case $3 in
        src/*) grep -m 1 "^fn [A-Za-z0-9_:+]*::$4: no proof: .* did not prove " "$1" ;;
        *)
            awk -v place="$3:" -v need="\`$4\`:" -v any="${3:-any}" '
                { at = $0; sub(/^\.\//, "", at) }
                !open && /: error/ && (any == "any" || index(at, place) == 1 && index($0, ": error: " need)) && !/ was not (admitted|checked)/ {
                    open = 1
                    print
                    next
                }
                open && /^  / { print; next }
                open { exit }' "$1"
            ;;
    esac
}

# wrote TREE EDIT FILE LINE: the edit changes this line, and so that of its own text beside the log
wrote() {
    edited="$1/target/must-fail/$2/$3.txt"
    [ -f "$edited" ] && [ "$(sed -n "${4}p" "$edited")" != "$(sed -n "${4}p" "$1/crates/${2%/*}/$3")" ]
}

# why TREE EDIT ERROR [WORDS]: why an error does not show that the version is refused for its fact, by what it says and by the line that it names
why() {
    place=$(sed -n '1s|^\(\./\)*\([^ :]*\):\([0-9]*\):.*|\2 \3|p' "$3")
    file=${place% *}
    line=${place#* }
    if [ ! -s "$3" ]; then
        echo 'it is not refused there'
    elif grep -q -e 'that can be named from here' -e 'expected type `tie\.Need-' -e 'expected type `goal\.' -e 'expected type `[a-z0-9A-Z_.]*\.Tie\.Need-' \
        -e 'expected type `[a-z0-9A-Z_.]*\.Goals\.' -e '` is not in scope$' -e '` is not in scope[^ ]' -e 'has no field `' -e 'explicit arguments* more than' \
        -e 'this pattern needs a function' -e '`omega` does not read the entry' "$3"; then
        echo 'the proof does not fit'
    elif [ "${file%%/*}" = specs ]; then
        echo 'it is no definition'
    elif [ -n "$4" ]; then
        grep -q -F -e "$4" "$3" || echo 'the refusal does not have its words'
    elif [ "${file%%/*}" = proofs ] && wrote "$1" "$2" "$file" "$line"; then
        echo 'its own proof is refused'
    fi
}

# No wrong version is refused only because a proof file no longer fits the code, or for what it wrote itself into a proof or a definition, and none survives
# beside others of its edit: of each log the first error is looked at, or, where a version names its refusal, the error there. The words of a refusal, where a
# version names some, may stand at a line that the edit wrote. Each edit has such a log, and it goes to the check's own end.
unfit() {
    for said in "$1"/crates/*/must-fail/*.edit; do
        edit=${said#"$1"/crates/}
        [ ! -f "$said" ] || [ -f "$1/target/must-fail/${edit%%/*}/$(basename "$edit" .edit)/.log" ] || echo "$edit was not tried"
    done
    for log in "$1"/target/must-fail/*/*/.log; do
        [ -f "$log" ] || { echo "no edit was tried"; continue; }
        grep -q '^logic=not-proved' "$log" || echo "$log: the check does not say that it refuses the edit"
        edit=${log#"$1"/target/must-fail/}
        edit=${edit%/.log}
        said="$1/crates/${edit%/*}/must-fail/${edit#*/}.edit"
        if [ -f "$said" ]; then awk -f tests/versions.awk "$said"; else printf '\t\t%s\t\t\t\t\t\n' "${edit#*/}"; fi | cut -f3,6-8 | tr '\t' '|' > "$2/versions"
        while IFS='|' read -r version named need words; do
            error "$log" "$edit" $named $need > "$2/error"
            fault=$(why "$1" "$edit" "$2/error" "$words")
            [ -z "$fault" ] || echo "${edit%/*}/$version: $fault: ${named:+$named $need: }$(head -n 1 "$2/error")" | cut -c1-300
        done < "$2/versions"
    done
}

# Every public definition of specs/ is reached by a contract, through the definitions that it cites: what no promise cites can be deleted unseen.
uncited() { (cd "$1" && awk -f "$top/tests/uncited.awk" crates/*/specs/*.antt crates/*/src/*.rt); }

# The kit on which the gate was last green; another one is told.
toolchain() { rt version | cmp -s - "$1/.ci/toolchain" || echo "the gate was last green on $(cat "$1/.ci/toolchain" 2> /dev/null), this is $(rt version)"; }

# look NAME: it finds nothing in this tree
look() {
    found=$("$1" . "$work")
    if [ -z "$found" ]; then passed=$((passed + 1)); else failed=$((failed + 1)); printf 'failed: %s finds\n%s\n' "$1" "$found"; fi
}

# sees NAME: it finds the fault of the tree that was made in $work/tree
sees() {
    if [ -n "$("$1" "$work/tree" "$work")" ]; then passed=$((passed + 1)); else failed=$((failed + 1)); echo "failed: $1 does not see $2"; fi
    rm -rf "$work/tree"
    mkdir -p "$work/tree/crates/x/src" "$work/tree/target/log" "$work/tree/.ci"
}

# puts the list of services and the files that it names into the tree
services() {
    mkdir -p "$work/tree/docs"
    cp docs/SERVICES.md "$work/tree/docs/"
    for file in $(sed -n 's/^| [^|]* | `\([a-z_]*\)::\([a-z_]*\)::[a-z_]*` |.*/crates\/\1\/src\/\2.rt/p' docs/SERVICES.md); do
        mkdir -p "$work/tree/$(dirname "$file")"
        cp "$file" "$work/tree/$file"
    done
}

# passes NAME: it finds nothing in that tree
passes() {
    found=$("$1" "$work/tree" "$work")
    if [ -z "$found" ]; then passed=$((passed + 1)); else failed=$((failed + 1)); printf 'failed: of %s %s finds\n%s\n' "$2" "$1" "$found"; fi
    rm -rf "$work/tree"
    mkdir -p "$work/tree/crates/x/src" "$work/tree/target/log" "$work/tree/.ci"
}

work=$(mktemp -d) || exit 1
trap 'rm -rf "$work"' EXIT
for name in promises asks_nothing axioms unfit uncited; do look $name; done
# A newer kit that proves everything is no fault: it counts nothing.
toolchain .

mkdir -p "$work/tree/crates/x/src" "$work/tree/target/log" "$work/tree/.ci"
printf 'pub fn one(x: u8) -> u8 {\n    x\n}\n' > "$work/tree/crates/x/src/x.rt"
sees promises 'a public function without a promise'
services
sed 's/^    ensures /    requires { Unit }\n    ensures /' crates/clearing/src/clear.rt > "$work/tree/crates/clearing/src/clear.rt"
sees asks_nothing 'a service that asks something'
printf '#[unsafe(no_mangle)]\npub extern "C" fn one(x: u8) -> u8\n    requires { x }\n    ensures { x }\n{\n    x\n}\n' > "$work/tree/crates/x/src/x.rt"
services
sees asks_nothing 'a function for C that asks something'
echo 'x:' > "$work/tree/crates.txt"
echo 'logic=proved functions=1 axioms=1 sum=0' > "$work/tree/target/log/x.out"
sees axioms 'an axiom'
echo 'x staticlib: y' > "$work/tree/crates.txt"
printf 'axioms libc: none reached of the 128 declared\nlogic=proved functions=1 axioms=1 sum=0\n' > "$work/tree/target/log/x.out"
sees axioms 'an axiom of a static library'
echo 'x staticlib: y' > "$work/tree/crates.txt"
sees axioms 'a crate that was not checked'
echo 'reader: y' > "$work/tree/crates.txt"
printf 'axioms libc: read (1 of the 128 declared)\naxioms std: abort (1 of the 2 declared)\nlogic=proved functions=1 axioms=2 sum=0\n' \
    > "$work/tree/target/log/reader.out"
sees axioms 'an axiom of a program that is no system call'
echo 'reader: y' > "$work/tree/crates.txt"
printf 'axioms libc: read (1 of the 128 declared)\naxioms std: none reached of the 2 declared\nlogic=proved functions=1 axioms=1 sum=0\n' \
    > "$work/tree/target/log/reader.out"
passes axioms 'a program that reads'
# refused PLACE ERROR: an edit of line 2 of specs/A.antt and proofs/A.antt, of which this is the first error
refused() {
    edited="$work/tree/target/must-fail/x/y"
    mkdir -p "$work/tree/crates/x/specs" "$work/tree/crates/x/proofs" "$edited/specs" "$edited/proofs"
    for part in specs proofs; do
        printf 'one\ntwo\nthree\n' > "$work/tree/crates/x/$part/A.antt"
        printf 'one\ntwice\nthree\n' > "$edited/$part/A.antt.txt"
    done
    printf './%s:1: error: %b\n./proofs/A.antt:3:1: error: another\nlogic=not-proved\n' "$1" "$2" > "$edited/.log"
}
# shellcheck disable=SC2016
for error in '`a`: module `Tie` has no `Need-a` that can be named from here' \
    '`a`: `goal.a`: module `Rattle.x.proofs.f.Goals` has no `a` that can be named from here' 'expected type `tie.Need-a`' \
    'expected type `goal.a`' 'expected type `Rattle.x.proofs.a.f.Tie.Need-a`' 'expected type `Rattle.x.proofs.a.f.Goals.a`' \
    '`a`: `b` is not in scope; did you mean `c`?' '`a`: `b` is not in scope: add `use c`' \
    '`a`: `b` is not in scope' '`a`: record `R` has no field `b`' '`a`: expected type `A`\n  this call also writes 1 explicit argument more than `b` takes' \
    '`a`: this pattern needs a function (or path) type to bind' '`a`: `omega` does not read the entry `k`'; do
    refused proofs/A.antt:3 "$error"
    sees unfit "an edit whose first error is $error"
done
refused proofs/A.antt:2 'expected type `A`, but this has type `B`'
sees unfit 'an edit whose own proof is refused'
refused specs/A.antt:3 'expected type `A`, but this has type `B`'
sees unfit 'an edit that is no definition'
refused proofs/A.antt:3 'expected type `A`, but this has type `B`\n  `b` is not in scope here, so what is shown does not paste back'
passes unfit 'an edit that is refused for a fact'
refused proofs/A.antt:2 'expected type `A`, but this has type `B`'
sed -i '1i./proofs/0.antt:3:1: error: 1 declaration that depends on `a`, which was rejected, was not checked: f' "$edited/.log"
sees unfit 'an edit whose own proof is refused, behind what follows from that'
refused proofs/A.antt:3 'expected type `A`, but this has type `B`'
sed -i '/^logic=/d' "$edited/.log"
sees unfit 'an edit whose check did not end'
refused proofs/A.antt:3 'expected type `A`, but this has type `B`'
mkdir -p "$work/tree/crates/x/must-fail"
echo 'file: src/x.rt' > "$work/tree/crates/x/must-fail/z.edit"
sees unfit 'an edit that was not tried'
# joint NEED [WORDS]: two versions in one edit, of which the second names this refusal
joint() {
    refused proofs/A.antt:3 '`a`: expected type `A`, but this has type `B`'
    for said in '1:1: error: `b`: expected `1`' '2:1: error: `c`: expected `2`' '3:1: error: `d`: `a` was not admitted' \
        '3:1: error: 1 declaration that depends on `a`, which was rejected, was not checked: f'; do
        echo "./proofs/A.antt:$said" >> "$edited/.log"
    done
    mkdir -p "$work/tree/crates/x/must-fail"
    printf '# version: one\n# refused at: proofs/A.antt a\nfile: src/x.rt\n# version: two\n# refused at: proofs/A.antt %s\n' "$1" \
        > "$work/tree/crates/x/must-fail/y.edit"
}
joint b
passes unfit 'two versions in one edit, each refused at its need'
joint b
echo 'fn x::a::f: no proof: expected answers in ./proofs/a/f/Answers.antt; `search` did not prove `returns`' >> "$edited/.log"
printf '# version: three\n# refused at: src/a.rt f\n' >> "$work/tree/crates/x/must-fail/y.edit"
passes unfit 'a version that is refused in a function without a proof file'
joint b
echo 'fn x::a::f: proved' >> "$edited/.log"
printf '# version: three\n# refused at: src/a.rt f\n' >> "$work/tree/crates/x/must-fail/y.edit"
sees unfit 'a version whose function without a proof file is proved'
joint e
sees unfit 'one of two versions in one edit that is not refused'
joint d
sees unfit 'one of two versions whose refusal only follows from another'
joint f
sees unfit 'one of two versions of which only what rests on it is not checked'
joint c
sees unfit 'one of two versions whose own proof is refused'
joint 'c: expected `2`'
passes unfit 'a version that is refused with its words at a line that it wrote'
joint 'c: expected `3`'
sees unfit 'a version that is refused for something else'
mkdir -p "$work/tree/crates/x/specs"
printf 'ghost use Rattle.x.specs.A.{Cited};\npub fn one(x: u8) -> u8\n    ensures { Cited x result }\n{\n    x\n}\n' \
    > "$work/tree/crates/x/src/x.rt"
printf 'abbrev pub Cited : ℕ → ℕ → Type 0\nCited x r = Below x r\n\nabbrev pub Below : ℕ → ℕ → Type 0\nBelow x r = x ≡ r\n' \
    > "$work/tree/crates/x/specs/A.antt"
cp -r "$work/tree" "$work/cited"
passes uncited 'definitions that a contract reaches'
cp -r "$work/cited/." "$work/tree"
printf '\n-- a law of two numbers\nabbrev pub Law : ℕ → Type 0\nLaw x = Cited x x\n' >> "$work/tree/crates/x/specs/A.antt"
sees uncited 'a definition that no contract reaches'
cp -r "$work/cited/." "$work/tree"
printf 'ghost use Rattle.x.specs.A.{Cited};\npub fn one(x: u8) -> u8\n    requires { x < 9 }\n' > "$work/tree/crates/x/src/x.rt"
printf '    ensures said { (record { low = x }) → Cited\n        x result }\n{\n    x\n}\n' >> "$work/tree/crates/x/src/x.rt"
passes uncited 'a definition in a clause with a name, over two lines'
cp -r "$work/cited/." "$work/tree"
printf 'ghost use Rattle.x.specs.A.{Cited};\npub fn one(x: u8) -> u8\n    ensures { x ≡ result } // { Cited\n{\n    Cited\n}\n' > "$work/tree/crates/x/src/x.rt"
sees uncited 'a definition that stands beside a clause alone'
cp -r "$work/cited/." "$work/tree"
printf 'pub struct One {\n    x: u8,\n    ghost low: { Cited x x },\n}\nimpl One {\n    ghost use Rattle.x.specs.A.{Cited};\n}\n' \
    > "$work/tree/crates/x/src/x.rt"
passes uncited 'a definition in what a type promises, named by a use within an impl'
cp -r "$work/cited/." "$work/tree"
printf 'ghost use Rattle.x.specs.A.{Cited};\npub struct One {\n    x: u8,\n    ghost low: { x < 9 }, // { Cited x x }\n}\n' \
    > "$work/tree/crates/x/src/x.rt"
sees uncited 'a definition that stands beside what a type promises alone'
echo 'another kit' > "$work/tree/.ci/toolchain"
sees toolchain 'another toolchain'

echo "$passed passed, $failed failed"
[ "$failed" -eq 0 ]
