#!/bin/sh
# Where the sources have a form that the design pass looks at (docs/DESIGN-PASS.md): a line a place, 'POINT FILE:LINE what', or 'POINT what' for what several
# files share. It finds candidates by their form; the page says which of them are places. Usage: tools/places.sh [POINT [TREE]]
# Exit status: 0 what was found is printed, be it nothing; 2 bad usage.
point=${1:-all}
tree=${2:-$(dirname "$0")/..}
case $point in [1-8] | all) ;; *) echo "tools/places.sh: there is no point $point: name one of 1 to 8, or all" >&2; exit 2 ;; esac
[ $# -le 2 ] || { echo "tools/places.sh: it takes a point and a tree: tools/places.sh [POINT [TREE]]" >&2; exit 2; }
[ -d "$tree/crates" ] || { echo "tools/places.sh: $tree has no folder crates: name a checkout of this repository" >&2; exit 2; }
cd "$tree" || exit 2
work=$(mktemp -d) || exit 2
trap 'rm -rf "$work"' EXIT
sources() { find crates -path '*/out' -prune -o -path '*/src/*.rt' -print | sort; }
wanted() { [ "$point" = all ] || [ "$point" = "$1" ]; }

# FILE:LINE NAME HEAD of each function: its head on one line, from `fn` to the brace.
heads() {
    sources | xargs awk '
        { line = $0; sub(/\/\/.*/, "", line) }
        !open && line ~ /^[ \t]*(pub(\([a-z]+\))? )?(extern "C" )?fn / {
            open = 1; head = ""; name = line; at = FILENAME ":" FNR; sub(/.*fn /, "", name); sub(/[^A-Za-z0-9_].*/, "", name)
        }
        open { head = head " " line }
        open && (line ~ /^[ \t]*\{[ \t]*$/ || (line ~ /\{[ \t]*$/ && line !~ /(requires|ensures)[^}]*\{[ \t]*$/)) {
            gsub(/[ \t]+/, " ", head); print at, name, head; open = 0
        }'
}

# 1: each enum with its cases, and each number for a kind.
one() {
    sources | xargs awk '
        /^(pub(\([a-z]+\))? )?enum / { open = 1; name = $0; sub(/.*enum /, "", name); sub(/[ <].*/, "", name); at = FILENAME ":" FNR; cases = "" }
        open && /^    [A-Z]/ { c = $0; sub(/^ */, "", c); sub(/[ ,({].*/, "", c); cases = cases " " c }
        open && /^}/ { print "1 " at " enum " name ":" cases; open = 0 }
        /^    (pub )?(code|kind|place|number|tag): u[0-9]+,/ { print "1 " FILENAME ":" FNR " number" $0 }'
}

# 2: functions whose bodies are the same but for names and numbers, of four lines or more.
two() {
    sources | xargs awk '
        /^[ \t]*(pub(\([a-z]+\))? )?fn / { name = $0; sub(/.*fn /, "", name); sub(/[^A-Za-z0-9_].*/, "", name); at = FILENAME ":" FNR }
        /^\{/ { open = 1; body = ""; lines = 0; next }
        /^}/ && open {
            open = 0
            if (lines >= 4) { n[body]++; who[body] = who[body] " " at " " name }
            next
        }
        open { line = $0; sub(/\/\/.*/, "", line); gsub(/[A-Za-z_][A-Za-z0-9_]*/, "w", line); gsub(/[0-9]+/, "0", line); gsub(/[ \t]+/, "", line); body = body line; lines++ }
        END { for (b in n) if (n[b] > 1) print "2 one shape:" who[b] }' | sort
}

# 3: each loop that is no `for`.
three() { sources | xargs grep -nE '^[[:space:]]*(('"'"'[a-z]+: )?while |loop \{)' | sed -E 's/^([^:]*:[0-9]*):[ \t]*/3 \1 /'; }

# 4: each function that compares, orders or converts by name.
four() {
    heads | awk '$2 ~ /^(same|equal|agree|compare|order|from|into|to|as|is|told|tell)(s|d)?(_|$)/ || $2 ~ /_(of|answer|refusal|stated)$/ { print "4 " $1 " " $2 }'
}

# 5: a definition that three or more functions require, and parameters that stand side by side in three or more.
five() {
    heads | sed 's/ ensures .*//' | awk '/ requires / {
        s = $0; sub(/.* requires/, "", s); n = split(s, w, /[^A-Za-z_]/); split("", seen)
        for (i = 1; i <= n; i++) if (w[i] ~ /^[A-Z][a-zA-Z]+$/ && !seen[w[i]]++) c[w[i]]++
    } END { for (k in c) if (c[k] >= 3) print "5 required " c[k] " times: " k }' | sort -k3nr
    heads | sed 's/ \(requires\|ensures\) .*//' | awk '{
        s = $0; sub(/[^(]*\(/, "", s); n = split(s, p, /, */); m = 0; split("", q)
        for (i = 1; i <= n; i++) { x = p[i]; sub(/^ */, "", x); if (x !~ /:/) continue; sub(/:.*/, "", x); sub(/^mut /, "", x); q[++m] = x }
        for (i = 1; i + 2 <= m; i++) c[q[i] " " q[i + 1] " " q[i + 2]]++
    } END { for (k in c) if (c[k] >= 3) print "5 together " c[k] " times: " k }' | sort -k3nr
}

# 6: a number of elements beside a slice, and arrays in a struct.
six() {
    heads | sed 's/ \(requires\|ensures\) .*//' | awk '{
        if ($0 ~ /&(mut )?\[u8\], (count|letters|used|length|len|firsts|seconds|numerator)[a-z_]*: (u16|usize)/) print "6 " $1 " " $2
    }'
    sources | xargs grep -nE '^    (pub )?[a-z_]+: \[' | sed -E 's/^([^:]*:[0-9]*):[ \t]*/6 \1 /'
}

# 7: an enum without values that a function takes, to choose what is done.
seven() {
    sources | xargs awk '
        /^(pub(\([a-z]+\))? )?enum / { open = 1; name = $0; sub(/.*enum /, "", name); sub(/[ <].*/, "", name); bare = 1 }
        open && /^    [A-Z]/ && $0 !~ /^    [A-Za-z]+,$/ { bare = 0 }
        open && /^}/ { if (bare) print name; open = 0 }' | sort -u > "$work/bare"
    heads | sed 's/ \(requires\|ensures\) .*//' | while read -r at name head; do
        for kind in $(cat "$work/bare"); do
            case $head in *": $kind"[,\)]*) echo "7 $at $name takes $kind" ;; esac
        done
    done
}

# 8: each proof by hand.
eight() { find crates -path '*/out' -prune -o -name Proof.antt -print | sort | sed 's/^/8 /'; }

wanted 1 && one
wanted 2 && two
wanted 3 && three
wanted 4 && four
wanted 5 && five
wanted 6 && six
wanted 7 && seven
wanted 8 && eight
exit 0
