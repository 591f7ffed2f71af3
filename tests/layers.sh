#!/bin/sh
# The picture of the layers, docs/pictures/layers.svg, is made from crates.txt: looks that it is the current one, or with --write makes it. A crate stands one
# row above the highest of those that it rests on. The last line is 'N passed, M failed'.
cd "$(dirname "$0")/.." || exit 1
. tests/made.sh

# drawn FILE: the picture of the crates that FILE lists
drawn() {
    awk '
        /^#/ || !NF { next }
        { name = $1; sub(/:$/, "", name); names[++count] = name; for (i = 2; i <= NF; i++) { needs[name, ++many[name]] = $i } }
        # the kit'\''s own libraries are no crates of the repository
        function row(name,    i, highest, below) {
            if (name in rows) return rows[name]
            highest = 0
            for (i = 1; i <= many[name]; i++) {
                if (!(needs[name, i] in known)) continue
                below = row(needs[name, i])
                if (below > highest) highest = below
            }
            return rows[name] = highest + 1
        }
        END {
            for (i = 1; i <= count; i++) known[names[i]] = 1
            for (i = 1; i <= count; i++) {
                r = row(names[i])
                if (r > top) top = r
                stands[r] = stands[r] " " names[i]
                if (++standing[r] > widest) widest = standing[r]
            }
            width = 40 + 150 * widest
            printf "<svg xmlns=\"http://www.w3.org/2000/svg\" viewBox=\"0 0 %d %d\"", width, 40 + 46 * top
            print " font-family=\"sans-serif\" font-size=\"14\" role=\"img\">"
            print "<title>The crates in rows: each rests on some of those in the rows below it</title>"
            printf "<rect width=\"%d\" height=\"%d\" fill=\"#ffffff\"/>\n", width, 40 + 46 * top
            for (r = top; r >= 1; r--) {
                n = split(stands[r], part, " ")
                y = 20 + 46 * (top - r)
                for (i = 1; i <= n; i++) {
                    x = (width - 150 * n) / 2 + 150 * (i - 1) + 5
                    printf "<rect x=\"%.0f\" y=\"%d\" width=\"140\" height=\"32\" rx=\"6\" fill=\"#eef3f8\" stroke=\"#5b7690\"/>", x, y
                    printf "<text x=\"%.0f\" y=\"%d\" text-anchor=\"middle\" fill=\"#12212e\">%s</text>\n", x + 70, y + 21, part[i]
                }
            }
            print "</svg>"
        }' "$1"
}

mkdir -p target
drawn crates.txt > target/layers.svg
made docs/pictures/layers.svg target/layers.svg "$1" tests/layers.sh
counted
