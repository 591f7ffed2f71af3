#!/bin/sh
# What the check says of each crate, target/log/CRATE.out, and of each must-fail edit, target/must-fail/CRATE/EDIT/.log, for the looks of tests/looks.sh. `rt
# ci` decides on both; of an edit it prints the beginning of one line alone, and of a crate that an earlier run proved nothing. Beside the log of an edit stands
# the text of each file that it changes, with .txt behind its name, since no other text of Rattle may stand below the project's folder. All are checked in
# copies outside of it, as many at once as there are processors, or as JOBS says, each over what the crate's own check kept. A log stays as long as all that it
# was made from. Usage: tests/tried.sh [CRATE..]: these crates alone. The last line is 'N passed, M failed': what was checked to its end.
cd "$(dirname "$0")/.." || exit 1
work=$(mktemp -d) || exit 1
trap 'rm -rf "$work"' EXIT
trap 'exit 1' INT TERM
jobs=${JOBS:-$(nproc)}
mkdir -p target/log target/must-fail "$work/sums" "$work/taken" "$work/faults"
crates=$(sed -n 's/^\([a-z_]*\).*:.*/\1/p' crates.txt)
passed=0

# below CRATE: the crate and those that it stands on
below() {
    awk -v crate="$1" '
        /^#/ || !NF { next }
        { line = $0; name = $1; sub(/:$/, "", name); sub(/^[^:]*:/, "", line); uses[name] = line }
        function reach(name,    parts, n, i) {
            if (name in reached || !(name in uses)) return
            reached[name] = 1
            n = split(uses[name], parts, " ")
            for (i = 1; i <= n; i++) reach(parts[i])
            print name
        }
        END { reach(crate) }' crates.txt
}

# own CRATE: a sum of its text
own() {
    [ -f "$work/sums/$1" ] ||
        (cd "crates/$1" && find src specs proofs -type f 2> /dev/null | LC_ALL=C sort | xargs sha256sum | sha256sum) > "$work/sums/$1"
    cat "$work/sums/$1"
}

# sum CRATE [EDIT]: a sum of all that a check of the crate, or one with the edit, reads
sum() {
    { rt version; grep "^$1\>" crates.txt; for crate in $(below "$1"); do own "$crate"; done; [ $# -eq 1 ] || cat "$2"; } | sha256sum | cut -c1-64
}

# stands LOG SUM: the log was made of this
stands() { [ -f "$1" ] && [ -f "$1.sum" ] && [ "$(cat "$1.sum")" = "$2" ]; }

# WHAT IS TO BE CHECKED, one to a line: a crate, the name of an edit or `-` for the crate as it stands, and the sum
for crate in ${*:-$crates}; do
    now=$(sum "$crate")
    if stands "target/log/$crate.out" "$now"; then passed=$((passed + 1)); else echo "$crate - $now"; fi
    for edit in crates/"$crate"/must-fail/*.edit; do
        [ -f "$edit" ] || continue
        name=$(basename "$edit" .edit)
        now=$(sum "$crate" "$edit")
        if stands "target/must-fail/$crate/$name/.log" "$now"; then passed=$((passed + 1)); else echo "$crate $name $now"; fi
    done
done > "$work/all"

# What the crates' own checks keep, and the libraries that stand below them. `rt all check` says nothing of a library that is built, nor of one that it takes
# from another checkout.
if [ ! -s "$work/all" ]; then
    echo "$passed passed, 0 failed"
    exit 0
elif [ $# -eq 0 ]; then
    rt all check > target/log/all 2>&1
else
    for crate; do (cd "crates/$crate" && rt check) || exit 1; done > target/log/all 2>&1
fi || { tail -n 20 target/log/all; echo "failed: the crates are not all proved: target/log/all has what was said"; echo "$passed passed, 1 failed"; exit 1; }
for log in target/must-fail/*/*; do
    edit=${log#target/must-fail/}
    [ -f "crates/${edit%/*}/must-fail/${edit#*/}.edit" ] || rm -rf "$log"
done

# copied CRATE TREE: the crate as it stands, without what its checks kept
copied() {
    rm -rf "$2/crates/$1"
    mkdir -p "$2/crates/$1/out"
    for part in src specs proofs out/rlib; do
        [ ! -d "crates/$1/$part" ] || cp -R -p "crates/$1/$part" "$2/crates/$1/$(dirname $part)/"
    done
}

# tried CRATE NAME SUM TREE: the log of one check, made in this tree
tried() {
    fault=$work/faults/$1-$2
    copied "$1" "$4"
    cp -R -p "crates/$1/out/incremental" "$4/crates/$1/out/"
    if [ "$2" = - ]; then
        log=target/log/$1.out
        wanted='0 logic=proved '
    else
        to=target/must-fail/$1/$2
        log=$to/.log
        wanted='1 logic=not-proved'
        rm -rf "$to"
        mkdir -p "$to"
        awk -v crate="crates/$1" -v to="$4/crates/$1" -f tests/edited.awk "crates/$1/must-fail/$2.edit" > "$fault" || return
        awk -v crate="crates/$1" -v to="$to" -v ending=.txt -f tests/edited.awk "crates/$1/must-fail/$2.edit"
    fi
    (cd "$4/crates/$1" && rt check --jobs 1) > "$log" 2>&1
    status=$?
    if [ "$status" -eq "${wanted%% *}" ] && grep -q "^${wanted#* }" "$log"; then
        echo "$3" > "$log.sum"
        echo checked > "$fault"
    else
        echo "its check ended with status $status, and not with ${wanted#* }: $(tail -n 1 "$log")" > "$fault"
    fi
}

# lane NUMBER: checks what no other lane has taken
lane() {
    tree=$work/$1
    mkdir -p "$tree/crates"
    cp crates.txt "$tree/"
    [ ! -f HANDLES ] || cp HANDLES "$tree/"
    for crate in $crates; do copied "$crate" "$tree"; done
    last=
    while read -r crate name now; do
        mkdir "$work/taken/$crate-$name" 2> /dev/null || continue
        [ -z "$last" ] || [ "$last" = "$crate" ] || copied "$last" "$tree"
        last=$crate
        tried "$crate" "$name" "$now" "$tree"
    done < "$work/all"
}
for number in $(seq 1 "$jobs"); do lane "$number" & done
wait
failed=0
while read -r crate name now; do
    said=$(cat "$work/faults/$crate-$name" 2> /dev/null)
    if [ "$said" = checked ]; then
        passed=$((passed + 1))
    else
        failed=$((failed + 1))
        echo "failed: $crate, $name: $said"
    fi
done < "$work/all"
echo "$passed passed, $failed failed"
[ "$failed" -eq 0 ]
