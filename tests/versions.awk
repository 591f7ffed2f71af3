# The wrong versions of must-fail edits, one to a line, in fields between tabs: crate, edit, version, what it is, where it is wrong, and the file, the need and
# the words of the refusal that it names. An edit is one version of its own name, or has several, each under a line `# version: NAME`.
# A line `#   WORDS` goes on with what the line before it says.
# Usage: awk -f tests/versions.awk crates/*/must-fail/*.edit

function told() {
    if (version != "") printf "%s\t%s\t%s\t%s\t%s\t%s\t%s\t%s\n", crate, edit, version, text, input, file, need, words
}

function begun(name) {
    version = name
    text = input = file = need = words = ""
}

FNR == 1 {
    told()
    n = split(FILENAME, path, "/")
    crate = path[n - 2]
    edit = path[n]
    sub(/\.edit$/, "", edit)
    several = 0
    begun(edit)
}
/^# version: / {
    if (several) told()
    several = 1
    begun(substr($0, 12))
    next
}
/^#   / {
    if (part == "input") input = input " " substr($0, 5)
    if (part == "words") words = words " " substr($0, 5)
    if (part == "text") text = text " " substr($0, 5)
    next
}
/^# wrong at: / { input = substr($0, 13); part = "input"; next }
/^# refused at: / {
    place = substr($0, 15)
    file = place
    sub(/ .*/, "", file)
    need = substr(place, length(file) + 2)
    words = need
    if (need ~ /: /) sub(/^[^:]*: /, "", words); else words = ""
    sub(/: .*/, "", need)
    part = "words"
    next
}
/^# fits the proof: / || /^# wrong law: / { part = ""; next }
/^# ./ { text = text (text == "" ? "" : " ") substr($0, 3); part = "text" }
END { told() }
