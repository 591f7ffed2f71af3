#!/bin/sh
# The list of must-fail edits in docs/MUST_FAIL.md is made from the edits: looks that it is the current one, or with --write makes it.
# Then that each edit says what it must and fits its text, and a case for each fault that these looks must find. The last line is 'N passed, M failed'.
cd "$(dirname "$0")/.." || exit 1
. tests/made.sh

# listed TREE: the page, from the comments of the edits
listed() {
    echo '# The must-fail edits'
    echo
    echo 'Each is one wrong version of a crate, which the check must refuse because a fact no longer holds. Made from the edits by `sh tests/edits.sh --write`.'
    echo
    echo 'Behind each stands an input at which the version is wrong. Tables B, S, O and so on, W, A, k and z are those of section 10 of'
    echo '`SPECIFICATION.md`; what is not named is as in 2.4 there. An edit is of `src/` or `specs/`. What it changes in a proof beside that only fits the'
    echo 'proof to the edited shape, so that the fact alone is refused, and its line `# fits the proof:` says what. An edit of `proofs/` alone changes what a'
    echo 'public law there states, and its line `# wrong law:` names the law. Versions of different functions or definitions may be tried in one edit, which'
    echo 'stands in brackets; then each has a line `# refused at:` with the file and the need where it is refused, and `tests/looks.sh` demands every such'
    echo 'refusal.'
    echo
    awk -f tests/versions.awk "$1"/crates/*/must-fail/*.edit | awk -F '\t' '
        # The words of a text in lines of at most 160 characters.
        function wrapped(text, begin, words, n, i, line) {
            n = split(text, words, " ")
            line = begin words[1]
            for (i = 2; i <= n; i++) {
                if (length(line) + 1 + length(words[i]) > 160) { print line; line = "  " words[i] } else line = line " " words[i]
            }
            print line
        }
        $1 != crate { if (crate != "") print ""; crate = $1; print "## `" crate "`"; print "" }
        { wrapped("**`" $3 "`**" ($2 == $3 ? "" : " (`" $2 "`)") ": " $4 ". Wrong at: " $5 ".", "- ") }'
}

# faults TREE: each version that does not say in its comments what it must
faults() {
    for edit in "$1"/crates/*/must-fail/*.edit; do
        [ -f "$edit" ] || { echo "no edit is there"; continue; }
        awk -v edit="${edit#"$1"/}" -v crate="${edit%/must-fail/*}" '
            function fault(text) { print edit (several ? ", " label : "") ": " text }
            function judged(    f, line, there) {
                if (!said) fault("no comment says what the wrong version is")
                if (at != 1 || bare) fault("no line \"# wrong at: INPUT: ..\"")
                if (version && proof && fits != 1) fault("a proof is changed, and no line \"# fits the proof: ..\"")
                if (fits && !(version && proof)) fault("it fits no proof")
                if (!version && law != 1) fault("only a proof is changed, and no line \"# wrong law: NAME: ..\"")
                if (law && version) fault("not only a law is changed")
                if (law && !version) {
                    there = 0
                    for (f in files) {
                        while ((getline line < (crate "/" f)) > 0) if (name != "" && index(line, "pub " name " : ")) there = 1
                        close(crate "/" f)
                    }
                    if (!there) fault("no public law of this name in the file that is changed")
                }
                if (several && refused != 1) fault("one of several versions, and no line \"# refused at: FILE NEED\"")
                if (refused && place in taken) fault("another version is refused at the same need")
                if (refused) {
                    taken[place] = 1
                    f = place
                    sub(/ .*/, "", f)
                    if ((getline line < (crate "/" f)) < 0) fault("no file " f " is there to be refused"); else close(crate "/" f)
                }
            }
            function begun() { said = at = bare = fits = law = proof = version = refused = 0; name = place = ""; split("", files) }
            BEGIN { begun() }
            /^# version: / {
                if (count || said || at || version || proof) judged()
                begun()
                several = 1
                label = $3
                count++
                next
            }
            /^#   / { next }
            /^# wrong at: / { at++; if ($0 !~ /^# wrong at: .+: .+/) bare = 1; next }
            /^# fits the proof: ./ { fits++; next }
            /^# refused at: [^ ]+ ./ { refused++; place = $4 " " $5; sub(/:$/, "", place); next }
            /^# wrong law: / { law++; name = $4; if (!sub(/:$/, "", name) || NF < 5) name = ""; next }
            /^# ./ { said++ }
            /^file: / { file = substr($0, 7) }
            /^old: / && file ~ /^proofs\// { proof++; files[file] = 1 }
            /^old: / && file !~ /^proofs\// { version++ }
            END { judged(); if (count == 1) { several = 0; fault("one version alone needs no name of its own") } }' "$edit"
    done
    awk -f tests/versions.awk "$1"/crates/*/must-fail/*.edit | cut -f1,3 | sort | uniq -d | sed 's/\t/: two versions are named /'
}

# fits TREE: each edit of which an 'old:' text does not stand in its file exactly once, as `rt` would find it much later
fits() {
    for edit in "$1"/crates/*/must-fail/*.edit; do
        awk -v crate="${edit%/must-fail/*}" -f tests/edited.awk "$edit" | sed "s|^|${edit#"$1"/}: |"
    done
}

mkdir -p target
listed . > target/must-fail.md
made docs/MUST_FAIL.md target/must-fail.md "$1" tests/edits.sh
held 'what the edits say' '' "$(faults .)"
held 'the texts of the edits' '' "$(fits .)"

work=$(mktemp -d) || exit 1
trap 'rm -rf "$work"' EXIT
mkdir -p "$work/crates/x/must-fail" "$work/crates/x/proofs"
printf 'law : Type\npub other : Type\npub named : Type\n' > "$work/crates/x/proofs/A.antt"
edit=crates/x/must-fail/y.edit

# judged FAULT LINES [VERSION]: an edit of these lines has one fault, of this version where it has several, which is told so; with no FAULT it has none
judged() {
    printf '%b' "$2" > "$work/$edit"
    held "an edit with ${1:-no fault}" "${1:+$edit${3:+, $3}: $1}" "$(faults "$work")"
}
said='# a version\n'
input='# wrong at: clear S: 2, right is 1\n'
version='file: specs/A.antt\nold: 1\nnew: 2\n'
proof='file: proofs/A.antt\nold: 1\nnew: 2\n'
judged '' "$said$input$version"
judged '' "$said$input# fits the proof: a need\n$version$proof"
judged '' "$said$input# wrong law: named: its hypothesis\n$proof"
judged 'no comment says what the wrong version is' "$input$version"
judged 'no line "# wrong at: INPUT: .."' "$said$version"
judged 'no line "# wrong at: INPUT: .."' "$said# wrong at: clear S\n$version"
judged 'a proof is changed, and no line "# fits the proof: .."' "$said$input$version$proof"
judged 'it fits no proof' "$said$input# fits the proof: a need\n$version"
judged 'only a proof is changed, and no line "# wrong law: NAME: .."' "$said$input$proof"
judged 'only a proof is changed, and no line "# wrong law: NAME: .."' "$said${input}file: specs/A.antt\n$proof"
judged 'not only a law is changed' "$said$input# fits the proof: a need\n# wrong law: named: its hypothesis\n$version$proof"
judged 'no public law of this name in the file that is changed' "$said$input# wrong law: law: its hypothesis\n$proof"
judged 'no public law of this name in the file that is changed' "$said$input# wrong law: named\n$proof"
place='# refused at: proofs/A.antt'
judged '' "# version: a\n$said$input$place one\n$version# version: b\n$said$input$place two: a fact\n$version"
# of_version FAULT LINES: the same of a version beside a sound one
of_version() { judged "$1" "# version: a\n$said$input$place one\n$version# version: b\n$2" b; }
of_version 'one of several versions, and no line "# refused at: FILE NEED"' "$said$input$version"
of_version 'another version is refused at the same need' "$said$input$place one\n$version"
of_version 'no file proofs/B.antt is there to be refused' "$said$input# refused at: proofs/B.antt one\n$version"
of_version 'no line "# wrong at: INPUT: .."' "$said$place two\n$version"
judged 'one version alone needs no name of its own' "# version: a\n$said$input$place one\n$version"

# fitting FAULT LINES: an edit of proofs/A.antt fits, or with a FAULT it does not
fitting() {
    printf 'file: proofs/A.antt\n%b' "$2" > "$work/$edit"
    held "an edit whose text stands ${1:-once}" "${1:+$edit: the text stands $1}" "$(fits "$work" | sed 's/ in proofs.*//')"
}
fitting '' 'old: pub named\nnew: pub another\nold: another :\nnew: one\n'
fitting 'not' 'old: missing\nnew: one\n'
fitting 'more than once' 'old: pub\nnew: one\n'

counted
