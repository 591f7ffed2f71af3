# Applies a must-fail edit to the text of its crate: -v crate=FOLDER. Each file that it changes is written below the folder `to`, where one is named, with
# `ending` behind its name. Where a text does not stand in its file exactly once, it prints that, writes nothing, and ends with status 1.
# Usage: awk -v crate=FOLDER [-v to=FOLDER -v ending=WORDS] -f tests/edited.awk EDIT
/^file: / { file = substr($0, 7) }
/^old: / { old = substr($0, 6) }
/^new:/ {
    new = substr($0, 5)
    sub(/^ /, "", new)
    if (!(file in text)) {
        while ((getline line < (crate "/" file)) > 0) text[file] = text[file] line "\n"
        close(crate "/" file)
    }
    at = old == "" ? 0 : index(text[file], old)
    rest = substr(text[file], at + length(old))
    if (!at || index(rest, old)) {
        print "the text stands " (at ? "more than once" : "not") " in " file ": " substr(old, 1, 100)
        failed = 1
        exit
    }
    text[file] = substr(text[file], 1, at - 1) new rest
}
END {
    if (failed) exit 1
    if (to == "") exit
    for (file in text) {
        folder = file
        sub(/\/[^\/]*$/, "", folder)
        system("mkdir -p '" to "/" folder "'")
        printf "%s", text[file] > (to "/" file ending)
        close(to "/" file ending)
    }
}
