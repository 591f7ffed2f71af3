#!/bin/sh
# What a file of vectors covers, made from the file: the cases of each call by outcome, and of each section of the specification.
# Usage: sh conformity/table.sh [VECTORS], conformity/vectors.txt where none is named. conformity/COVERED.md is what it prints.
here=$(cd "$(dirname "$0")" && pwd) || exit 2
[ $# -le 1 ] || { echo "usage: sh conformity/table.sh [VECTORS]" >&2; exit 2; }
vectors=${1:-$here/vectors.txt}
[ -f "$vectors" ] || { echo "there is no file $vectors: name a file of vectors" >&2; exit 2; }
awk '
# The outcome in words: verdicts, and the kinds of places of stops, have one result each.
function outcome(call, result, first) {
    if (result == 0 && call ~ /^(compare|compare_signed|chain)$/) return first == 0 ? "0 same" : "0 different"
    if (result == 0 && call == "remainder") return first == 0 ? "0 moves" : "0 none"
    if (result == 0 && call == "check") return first == 0 ? "0 joins" : first == 1 ? "0 breaks" : "0 ends at another program"
    if (result == 11 || result == 12)
        return result (first == 2 ? " at a triple" : first == 3 ? " at a triple of the mirror" : first == 4 ? " at the set" : "")
    return result
}
function order(section,    part, n) {
    n = split(section, part, ".")
    return part[1] * 100 + (n > 1 ? part[2] : 0)
}
/^case / { section = $2; sub(/:$/, "", section) }
/^call / { call = $2 }
/^result / { result = $2 }
/^values / {
    name = outcome(call, result, $2)
    if (!(call in cases)) calls[++called] = call
    cases[call]++
    if (!((call, name) in count)) names[call, ++kinds[call]] = name
    count[call, name]++
    if (!(section in in_section)) sections[++sectioned] = section
    in_section[section]++
    all++
}
END {
    print "# What the vectors cover\n\nMade from the file by `sh conformity/table.sh`. An outcome is the number of the result, with what tells outcomes"
    print "of one result apart.\n"
    print "## Of each call, with the cases of each outcome\n"
    for (i = 1; i <= called; i++) {
        call = calls[i]
        # by result, then as they came
        for (j = 2; j <= kinds[call]; j++)
            for (k = j; k > 1 && names[call, k] + 0 < names[call, k - 1] + 0; k--) {
                swap = names[call, k]; names[call, k] = names[call, k - 1]; names[call, k - 1] = swap
            }
        line = "- `" call "`, " cases[call] " cases:"
        for (j = 1; j <= kinds[call]; j++) {
            item = " `" names[call, j] "` " count[call, names[call, j]] (j < kinds[call] ? "," : "")
            if (length(line item) > 120) { print line; line = " " }
            line = line item
        }
        print line
    }
    print "- all calls, " all " cases\n\n## Of each section of the specification\n\n| section | cases |\n|---|---|"
    for (i = 2; i <= sectioned; i++)
        for (k = i; k > 1 && order(sections[k]) < order(sections[k - 1]); k--) {
            swap = sections[k]; sections[k] = sections[k - 1]; sections[k - 1] = swap
        }
    for (i = 1; i <= sectioned; i++) print "| " sections[i] " | " in_section[sections[i]] " |"
}' "$vectors"
