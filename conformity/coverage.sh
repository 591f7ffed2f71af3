#!/bin/sh
# Says which edges of our library's code a file of vectors reaches. An edge is an outcome of a condition, or the entry of a function. The library is compiled
# from its module (boards/module.sh) with a call on each edge, and the runner runs the vectors over it. Every edge must be reached, or be listed in
# unreached.txt with the reason why no call can reach it.
# Usage: sh conformity/coverage.sh [VECTORS], vectors.txt where no file is named. It needs sh, awk, a C compiler (cc, or what CC names) and the Rattle
# toolchain, and leaves its files in target/coverage.
# It prints each edge that is neither reached nor listed; each line of unreached.txt that is reached, names no edge, stands there twice or has no reason; and
# how many edges there are, are reached, and are listed. The last line is 'N passed, M failed': N edges are reached or listed; M are the others, the lines that
# are told, and 1 more where the vectors do not hold on the library.
# Exit status: 0 M is 0; 1 it is not; 2 bad usage, or the toolchain is not as expected.
#
# Another maker does the same with its own code. Compile it with `clang -O1 -fsanitize-coverage=trace-pc-guard`, put it and coverage.c, which is compiled
# without that flag, into one archive, and run `COVERAGE=FILE sh conformity/run.sh ARCHIVE VECTORS`: FILE then has the number of edges and each that was
# reached. To name them, compile the code as one module with `-S -emit-llvm` beside these flags, make the archive from that text, and let
# `awk -f conformity/coverage.awk MODULE.ll` read it: line k of what that prints is edge k - 1 of FILE.
here=$(cd "$(dirname "$0")" && pwd) || exit 2
top=$(dirname "$here")
fail() { echo "conformity/coverage.sh: $1" >&2; exit 2; }

[ $# -le 1 ] || fail "it takes one file of vectors at most: sh conformity/coverage.sh [VECTORS]"
vectors=${1:-$here/vectors.txt}
[ -f "$vectors" ] || fail "there is no file $vectors: name a file of vectors"
listed=$here/unreached.txt
[ -f "$listed" ] || fail "there is no file $listed: it lists the edges that no call can reach"
sh "$top/boards/module.sh" || fail "the library's module is missing: boards/module.sh says above why"
kit=${RATTLE_HOME:-$(dirname "$(rt doc)")}
tools=$kit/toolchain/bin
[ -x "$tools/llvm-ar" ] || fail "the kit at $kit has no llvm-ar at toolchain/bin: it is not the kit that this script knows"

out=$top/target/coverage
mkdir -p "$out" || fail "$out cannot be made"
rm -f "$out"/*

# All calls tell a refusal by one function. It stays one: put into each call by the compiler, most of its cases there would be refusals of other calls.
"$tools/clang" --target=x86_64-unknown-linux-gnu -S -emit-llvm -O0 -Xclang -disable-llvm-passes -x ir "$top/target/boards/braid.bc" -o "$out/module.ll" ||
    fail "the kit's clang does not write the module as text: it says above why"
once='^define .*@"numbering::refusals::refusal_numbers"[(]'
[ "$(grep -c "$once" "$out/module.ll")" -eq 1 ] || fail "the module has no function numbering::refusals::refusal_numbers: look how all calls tell a refusal"
# So does each function of the library that comes with Rattle: what it does for each call of ours would stand as edges of the caller's, and its own are the same
# for all calls.
awk -v once="$once" '
    NR == FNR { if (/^attributes #[0-9]+ = .*[ {]alwaysinline[ }]/) always[$2] = 1; next }
    /^define .*@"(core|std|std_[a-z]+)::/ || $0 ~ once {
        if (match($0, / #[0-9]+ \{$/)) sub(/ #[0-9]+ \{$/, substr($0, RSTART + 1, RLENGTH - 3) in always ? " noinline {" : " noinline&")
    }
    { print }
' "$out/module.ll" "$out/module.ll" > "$out/apart.ll"
# The object is made from the text whose edges are named, without any further change to it, so that the two have the same guards.
"$tools/clang" -O1 -fsanitize-coverage=trace-pc-guard -S -emit-llvm -x ir "$out/apart.ll" -o "$out/braid.ll" ||
    fail "the kit's clang put no calls on the edges of the module: it says above why"
"$tools/clang" -O1 -Xclang -disable-llvm-passes -c -x ir "$out/braid.ll" -o "$out/braid.o" ||
    fail "the kit's clang did not compile $out/braid.ll: it says above why"
${CC:-cc} -std=c99 -O1 -Wall -Wextra -Werror -pedantic -c "$here/coverage.c" -o "$out/coverage.o" ||
    fail "coverage.c was not compiled: the compiler says above why"
"$tools/llvm-ar" rc "$out/libbraid.a" "$out/braid.o" "$out/coverage.o" || fail "the archive $out/libbraid.a was not made"
awk -f "$here/coverage.awk" "$out/braid.ll" > "$out/edges" || fail "the edges of $out/braid.ll were not named"

COVERAGE=$out/reached sh "$here/run.sh" "$out/libbraid.a" "$vectors" > "$out/report"
status=$?
[ $status -le 1 ] || fail "the runner was not built over the library: conformity/run.sh says above why"
[ -f "$out/reached" ] || fail "the run left no $out/reached: the module's calls on edges are not those that coverage.c knows"
[ "$(head -n 1 "$out/reached")" -eq "$(wc -l < "$out/edges")" ] ||
    fail "the library has $(head -n 1 "$out/reached") edges, and $(wc -l < "$out/edges") are named in $out/edges: look at how the kit's clang writes them"
if [ $status -ne 0 ]; then
    echo "the vectors do not hold on the library; $out/report has the whole report:"
    grep -e '^failed: ' -e '^line ' "$out/report"
fi

# Beside the names and the reached edges it takes unreached.txt, in which a line that begins with a space goes on with the one before.
awk -v failed=$status '
    FILENAME == ARGV[1] { name[FNR] = $0; place[$0] = FNR; edges = FNR; next }
    FILENAME == ARGV[2] { if (FNR > 1) { reached[$1 + 1] = 1; count++ } next }
    /^#/ || /^$/ { next }
    /^ / { sub(/^ +/, " "); line[lines] = line[lines] $0; next }
    { line[++lines] = $0 }

    function fault(text, about) { print text ": " about; failed++ }
    function entry_of(text) { sub(/: .*/, ": entered", text); return text }

    END {
        # No edge of a function is reached without its entry: where one is, the names are not those of the guards.
        for (i in reached) if (!(place[entry_of(name[i])] in reached)) exit 2
        for (i = 1; i <= lines; i++) {
            text = line[i]
            sub(/ -- .*/, "", text)
            if (text in listed) fault("listed twice", text)
            else if (line[i] !~ / -- [^ ]/) fault("listed without a reason", text)
            else if (!(text in place)) fault("listed, and names no edge", text)
            else if (place[text] in reached) fault("listed, and reached", text)
            else held++
            listed[text] = 1
        }
        for (i = 1; i <= edges; i++) if (!(i in reached) && !(name[i] in listed)) fault("not reached", name[i])
        printf "%d edges, %d reached, %d listed\n%d passed, %d failed\n", edges, count, held, count + held, failed
        exit failed > 0
    }
' "$out/edges" "$out/reached" "$listed"
status=$?
[ $status -le 1 ] || fail "an edge is reached of a function that is not entered: the names in $out/edges are not in the order of the guards"
exit $status
