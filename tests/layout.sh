#!/bin/sh
# How code and proofs are laid out: no line of a crate is over 160 characters, no function has more statements than `most`, a limit stands in definitions and
# proofs by its constant, and a path of more than three `.before` stands alone as the body of an accessor, so that each place that a proof names is named once.
# Then a case for each fault that these looks must find. The last line is 'N passed, M failed'.
cd "$(dirname "$0")/.." || exit 1
. tests/made.sh
work=$(mktemp -d) || exit 1
trap 'rm -rf "$work"' EXIT

# characters, where the machine has such a locale: under that of bytes a letter such as λ counts twice
for LC_ALL in C.UTF-8 en_US.UTF-8 C; do
    export LC_ALL
    [ "$(printf 'λ' | wc -m)" -eq 1 ] && break
done

# crates TREE: the files of the crates that people write
crates() { find "$1/crates" -path '*/crates/*/out' -prune -o -type f \( -name '*.rt' -o -name '*.antt' -o -name '*.edit' \) -print | sort; }

# long TREE: each line that is too long
long() {
    crates "$1" | while IFS= read -r file; do
        expand "$file" | grep -nE '^.{161}' | sed "s|^\([0-9]*\):.*|${file#"$1"/}: line \1 is longer than 160 characters|"
    done
}

# deep TREE: each path of more than three steps back that is not the whole body of an accessor
deep() {
    crates "$1" | grep '\.antt$' | while IFS= read -r file; do
        tr '\n' '~' < "$file" | sed -E 's/~ *([^ ~]+) ([^ ~]+) = \2( *\.before)+~/~~/g' | grep -oE '\.before(( |~)*\.before){3,}' | sed 's/.*/deep/' | sort -u \
            | sed "s|deep|${file#"$1"/}: a path of more than three steps back stands outside an accessor|"
    done
}

# large TREE: each function with too many statements
most=10
large() {
    crates "$1" | grep '/src/.*\.rt$' | while IFS= read -r file; do
        awk -v most="$most" -f tests/statements.awk "$file" | sed "s|^$1/||"
    done
}

# numbers TREE: each limit of a format that stands as a number in a definition or proof: the most letters of a program and one more, and the bytes of the cells.
# The computed cases are left out.
numbers() {
    crates "$1" | grep '\.antt$' | grep -v -e 'Cases\.antt$' -e '/Sheet\.antt$' | while IFS= read -r file; do
        sed 's/--.*//' "$file" | grep -nwE '4095|4096|20480' | sed "s|^\([0-9]*\):.*|${file#"$1"/}: line \1 has a limit as a number|"
    done
}

held 'the lines of the crates' '' "$(long .)"
held 'the limits in the proofs' '' "$(numbers .)"
held 'the functions of the crates' '' "$(large .)"
held 'the paths of the proofs' '' "$(deep .)"

# planted PROOF: a small tree with this proof
planted() {
    mkdir -p "$work/crates/x/proofs"
    printf '%b' "$1" > "$work/crates/x/proofs/A.antt"
}
path=.before.before.before.before
fault='crates/x/proofs/A.antt: a path of more than three steps back stands outside an accessor'
planted "abbrev start : A → B\nstart c = c$path\n\nreturns c = c.before.before.before.x\n"
held 'a sound proof' '' "$(long "$work"; deep "$work")"
planted "returns c = c$path.x\n"
held 'a path in an answer' "$fault" "$(deep "$work")"
planted 'returns c =\n    f (c.before.before\n    .before.before)\n'
held 'a path over two lines' "$fault" "$(deep "$work")"
planted "start c = d$path\n"
held 'an accessor of another place than its own' "$fault" "$(deep "$work")"
planted 'few : n < 4096\n'
held 'a limit as a number' 'crates/x/proofs/A.antt: line 1 has a limit as a number' "$(numbers "$work")"
planted 'few : n < 2 ^ count_width -- 4096\n'
held 'a limit by its constant' '' "$(numbers "$work")"
planted "$(printf '%161s' '' | tr ' ' u)\n"
held 'a line that is too long' 'crates/x/proofs/A.antt: line 1 is longer than 160 characters' "$(long "$work")"
planted "$(printf '%160s' '' | sed 's/ /λ/g')\n"
held 'a line of 160 letters' '' "$(long "$work")"

# written STATEMENTS: a function with so many, among them an array, a test that only returns, and a value at the end
written() {
    mkdir -p "$work/crates/x/src"
    {
        printf '#![tactic(auto)]\n\npub fn f(x: u8) -> u8\n    ensures said { (record { low = x; high = x }) ≡ result }\n'
        printf '    ensures {\n        result ≡ x;\n    }\n{\n    let a = [0u8; 4]; // an array; of bytes\n'
        printf '    if a[0] == x {\n        return x;\n    }\n'
        i=2
        while [ "$i" -lt "$1" ]; do
            printf '    g(x);\n'
            i=$((i + 1))
        done
        printf '    x\n}\n'
    } > "$work/crates/x/src/lib.rt"
}
written "$most"
held 'a function with as many statements as may be' '' "$(large "$work")"
written $((most + 1))
held 'a function with one statement too many' "crates/x/src/lib.rt: f has $((most + 1)) statements, more than $most" "$(large "$work")"

counted
