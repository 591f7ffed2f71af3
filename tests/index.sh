#!/bin/sh
# docs/INDEX.md is made from the comments of the definitions and from the contracts: looks that it is the current one, or with --write makes it.
# Then that each definition has its section, that the theory's files begin as they must, that what docs/MATHEMATICS.md and these beginnings name is there,
# and that no line of a document is over 160 characters; and a case for each fault that these looks must find. The last line is 'N passed, M failed'.
cd "$(dirname "$0")/.." || exit 1
. tests/made.sh
LC_ALL=C
export LC_ALL
work=$(mktemp -d) || exit 1
trap 'rm -rf "$work"' EXIT
mkdir -p "$work/all/versions"

# indexed TREE FAULTS: the sections of the page, or with FAULTS what is wrong in the files that it is made from
indexed() {
    awk -f tests/versions.awk "$1"/crates/*/must-fail/*.edit > "$work/all/versions/list"
    awk -v faults="$2" -f tests/index.awk "$1/docs/SPECIFICATION.md" "$1"/crates/*/specs/*.antt "$1"/crates/theory/proofs/*.antt \
        "$1"/crates/model/proofs/*.antt $(ls "$1"/crates/*/proofs/*Cases.antt | grep -v '/model/') "$1"/crates/*/src/*.rt "$work/all/versions/list"
}

page() {
    cat << 'END'
# Index

By the sections of `SPECIFICATION.md`: where each is defined, promised and proved, and what is tried of it. Made by `sh tests/index.sh --write`.

- Definitions, each with its comment. A file without a crate is under `crates/model/specs`.
- Promises: the services that state the section, each clause of the contract with the definitions that it cites, as `File.name` of `crates/model/specs` or
  `crate/File.name` of that crate's `specs`.
- Theorems: statements under `crates/theory/specs`; in brackets the laws under `crates/theory/proofs` that prove them, and the definitions of services that
  cite them, so that a promise has them.
- Cases: lists that are computed of the definitions; a file without a crate is under `crates/model/proofs`.
- Wrong versions: those of the crate of the section's service, which the check must refuse; `MUST_FAIL.md` says what each is.

END
    indexed . ''
}

# heads TREE: each file of the theory that does not begin with two to five lines of comment
heads() {
    for file in "$1"/crates/theory/specs/*.antt "$1"/crates/theory/proofs/*.antt; do
        case $file in */Lib.antt) continue ;; esac
        lines=$(awk '!/^--/ { exit } { lines++ } END { print lines + 0 }' "$file")
        [ "$lines" -ge 2 ] && [ "$lines" -le 5 ] || echo "${file#"$1"/}: it begins with $lines lines of comment"
    done
}

# quoted FILE: the words between backquotes in the text of a page
quoted() { awk -F '`' '{ for (i = 2; i < NF; i += 2) print $i }' "$1"; }

# placed FILE: of a page's `one` and `two` in `FILE`, each name and the file, between tabs
placed() {
    tr '\n' ' ' < "$1" | awk -F '`' '{
        for (i = 4; i <= NF; i += 2) if ($i ~ /\.antt$/ && $(i - 1) ~ /^ +in +$/)
            for (j = i - 2; j > 1 && $j !~ /\.antt$/; j -= 2) { print $j "\t" $i; if ($(j - 1) !~ /^,? *(and +)?$/) break }
    }'
}

# named FILES: what they define, or prove
named() {
    cat "$@" | awk '{ sub(/^ +/, ""); while (sub(/^(abbrev|unfoldable|pub|data|record) /, "")); if ($2 == ":" || $2 ~ /^[({]/) print $1 }' | sort -u
}

# missing TREE: what docs/MATHEMATICS.md, or the beginning of a file of the theory, names and is not there: a file or folder, a definition or a law, or one in
# the file in which it is said to be
missing() {
    named "$1"/crates/model/specs/*.antt "$1"/crates/model/proofs/*.antt "$1"/crates/theory/specs/*.antt "$1"/crates/theory/proofs/*.antt > "$work/names"
    quoted "$1/docs/MATHEMATICS.md" | sort -u | while read -r word; do
        case $word in
            */*) [ -e "$1/$word" ] || echo "docs/MATHEMATICS.md: no file $word" ;;
            *.antt) [ -f "$1/crates/theory/proofs/$word" ] || echo "docs/MATHEMATICS.md: no file $word" ;;
            *) grep -qxF -- "$word" "$work/names" || echo "docs/MATHEMATICS.md: no name $word" ;;
        esac
    done
    placed "$1/docs/MATHEMATICS.md" | while IFS='	' read -r word file; do
        case $file in */*) ;; *) file=crates/theory/proofs/$file ;; esac
        [ ! -f "$1/$file" ] || named "$1/$file" | grep -qxF -- "$word" || echo "docs/MATHEMATICS.md: no name $word in $file"
    done
    for file in "$1"/crates/theory/specs/*.antt "$1"/crates/theory/proofs/*.antt; do
        awk '!/^--/ { exit } { print }' "$file" > "$work/head"
        quoted "$work/head" | awk '{ print $1 }' | sort -u | while read -r word; do
            grep -qxF -- "$word" "$work/names" || echo "${file#"$1"/}: no name $word"
        done
    done
}

# long TREE: the lines of documents that have more than 160 characters
long() {
    find "$1" \( -name target -o -name .git \) -prune -o -name '*.md' -print | sort | while read -r file; do
        LC_ALL=C.UTF-8 grep -nE '^.{161,}' "$file" | sed "s|:.*||; s|^|${file#"$1"/}: line |; s|\$| is longer than 160 characters|"
    done
}

mkdir -p target
page > target/index.md
made docs/INDEX.md target/index.md "$1" tests/index.sh
held 'the sections of definitions and services' '' "$(indexed . 1)"
held 'the beginnings of the files of the theory' '' "$(heads .)"
held 'what the page of mathematics and the files of the theory name' '' "$(missing .)"
held 'the lines of the documents' '' "$(long .)"

# a small tree, in which each look finds what is planted and nothing else
small=$work/small
mkdir -p "$small/docs"
for crate in model theory x; do
    for folder in specs proofs src must-fail; do mkdir -p "$small/crates/$crate/$folder"; done
done
printf '## 6. Services\n\n### 6.4 Compare\n\n### 6.5 Verdicts\n' > "$small/docs/SPECIFICATION.md"
printf -- '-- Cases of specification 6.4.\nabbrev pub some : List {1} Case\n' > "$small/crates/x/proofs/XCases.antt"
printf '# a version\n# wrong at: compare: 1, right is 2\n' > "$small/crates/x/must-fail/wrong.edit"

# planted DEFINITIONS CLAUSE HEAD NAMED: the small tree with these
planted() {
    printf -- '-- Specification 6, services.\nuse X\n\n%b' "$1" > "$small/crates/model/specs/A.antt"
    printf -- '-- Specification 6, the promise.\nuse Rattle.std.specs.Prelude.{◌≡◌}\nuse Rattle.model.specs.A.{one, two as second}\n\n%b\n' "$2" \
        > "$small/crates/x/specs/P.antt"
    printf '#![tactic(auto)]\n\nghost use Rattle.x.specs.P.{XPromise};\npub fn call(\n)\n    ensures said { XPromise table.now result }\n{\n}\n' \
        > "$small/crates/x/src/x.rt"
    printf -- '%b' "$3" > "$small/crates/theory/specs/S.antt"
    printf -- '-- Laws.\n-- `law` proves `Said`.\npub law : (u : U)\n    → Said u\nlaw u = u\n' > "$small/crates/theory/proofs/L.antt"
    printf -- '-- Laws.\n' > "$small/crates/model/proofs/M.antt"
    printf '%b' "$4" > "$small/docs/MATHEMATICS.md"
    printf 'An index\n' > "$small/docs/INDEX.md"
}
sound='-- 6.4: one of them\n-- and more of it\nabbrev pub one : U\nabbrev pub another : U\n\n-- THE SECOND (6.5)\n\npub record two : U where\n  pub field : U\n'
clause='-- THE PROMISE (6.4)\npub record XPromise (table : U) : U where\n  pub stated_is : r ≡ one table\n  pub meaning : second\n      r\n'
statement='-- Specification 6.5: said.\n-- Twice.\nuse X\n\n-- what is said\npub record Said : U where\n'
cited='`one`, `another` and\n`two` in `crates/model/specs/A.antt`, `law` in `L.antt`.\n'

planted "$sound" "$clause" "$statement" "$cited"
held 'a sound tree' '' "$(indexed "$small" 1; heads "$small"; missing "$small"; long "$small")"
held 'the page of a sound tree' '## 6.4 Compare

Definitions:

- `A.antt`: `one`, `another`: one of them and more of it
- `x/specs/P.antt`: `XPromise`

Promises:

- `x::x::call`
  - `stated`: `A.one`
  - `meaning`: `A.two`

Cases:

- `x/proofs/XCases.antt`: `some`

Wrong versions:

- `x`: `wrong`

## 6.5 Verdicts

Definitions:

- `A.antt`: `two`

Theorems:

- `S.antt`: `Said` (law `law` of `L.antt`): what is said' "$(indexed "$small" '' | awk '/^## Wrong versions of/ { exit } { print }')"
planted '-- one of them\nabbrev pub one : U\n' "$clause" '-- Specification 6.5 and 6.4: said.\n-- Twice.\n' "$cited"
held 'a definition of a chapter' '' "$(indexed "$small" 1)"
planted "-- 6.6: one of them\nabbrev pub one : U\n" "$(echo "$clause" | sed 's/6\.4/6.6/')" "$statement" "$cited"
held 'a section that is not there' 'crates/model/specs/A.antt: the specification has no section 6.6
crates/x/specs/P.antt: the specification has no section 6.6
crates/x/src/x.rt: the specification has no section 6.6' "$(indexed "$small" 1 | sort -u)"
planted "$sound" '-- 6.4\npub record OtherPromise (table : U) : U where\n' "$statement" "$cited"
held 'a service without a promise' 'crates/x/src/x.rt: no section for the service call' "$(indexed "$small" 1)"
planted "$sound" "$clause" "$statement" "$cited"
sed -i 's/^-- Specification 6, services/-- Specification 6.4 and 6.5, services/; s/^-- 6.4: one/-- one/' "$small/crates/model/specs/A.antt"
held 'a definition without a section' 'crates/model/specs/A.antt: no section in the comment of one another' "$(indexed "$small" 1 | head -1)"
planted "$sound" "$clause" '-- Specification 6.5: said.\nuse X\n' "$cited"
held 'a file that begins with one line' 'crates/theory/specs/S.antt: it begins with 1 lines of comment' "$(heads "$small")"
planted "$sound" "$clause" '-- 1\n-- 2\n-- 3\n-- 4\n-- 5\n-- 6\n' "$cited"
held 'a file that begins with six lines' 'crates/theory/specs/S.antt: it begins with 6 lines of comment' "$(heads "$small")"
planted "$sound" "$clause" '-- Specification 6.5: said.\n-- By `other`.\n' "$cited"
held 'a name that is not there, at the beginning of a file' 'crates/theory/proofs/L.antt: no name Said
crates/theory/specs/S.antt: no name other' "$(missing "$small" | sort)"
planted "$sound" "$clause" "$statement" '`law`, `lost`, `K.antt`, `one`, `Said` in `L.antt`, `crates/theory/specs/K.antt`\n'
held 'what the page of mathematics names and is not there' 'docs/MATHEMATICS.md: no file K.antt
docs/MATHEMATICS.md: no file crates/theory/specs/K.antt
docs/MATHEMATICS.md: no name Said in crates/theory/proofs/L.antt
docs/MATHEMATICS.md: no name lost
docs/MATHEMATICS.md: no name one in crates/theory/proofs/L.antt' "$(missing "$small" | sort)"
planted "$sound" "$clause" "$statement" "$(printf '%161s' '' | tr ' ' u)\n"
held 'a line that is too long' 'docs/MATHEMATICS.md: line 1 is longer than 160 characters' "$(long "$small")"

counted
