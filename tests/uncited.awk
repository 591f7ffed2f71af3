# Lists the public definitions of crates/*/specs that no contract reaches: none of src/ names them, and no definition that one names needs them.
# Usage: awk -f tests/uncited.awk crates/*/specs/*.antt crates/*/src/*.rt, from the top of the tree. A name is CRATE/MODULE/NAME.

# the words of a text; brackets, commas and dots stand between words
function words(text, list) {
    gsub(/[(){}.,;]/, " ", text)
    return split(text, list, /[ \t]+/)
}

# a word of this file means this definition; the parts of an operator `◌a◌b◌` each do
function means(file, name, id,    parts, n, i) {
    meaning[file, name] = id
    if (name ~ /◌/) {
        n = split(name, parts, /◌/)
        for (i = 1; i <= n; i++) if (parts[i] != "") meaning[file, parts[i]] = id
    }
}

# the names of a `use` line: use Rattle.CRATE.specs.MODULE.{a, b as c}
function imports(file, line,    from, list, names, n, i, pair) {
    from = line
    sub(/^[ \t]*(ghost )?use /, "", from)
    if (from !~ /^Rattle\.[a-z_]+\.specs\.[A-Za-z]+\.\{/) return
    list = from
    sub(/\.\{.*/, "", from)
    sub(/^Rattle\./, "", from)
    sub(/\.specs\./, "/", from)
    sub(/^[^{]*\{/, "", list)
    sub(/\}.*/, "", list)
    n = split(list, names, /, */)
    for (i = 1; i <= n; i++) {
        split(names[i], pair, / as /)
        means(file, pair[2] == "" ? pair[1] : pair[2], from "/" pair[1])
    }
}

# what stands in the braces of a clause, from the text behind the opening one; `depth` is how many are still open at its end
function inside(text,    at, sign) {
    for (at = 1; at <= length(text); at++) {
        sign = substr(text, at, 1)
        if (sign == "{") depth++
        if (sign == "}" && --depth == 0) return substr(text, 1, at - 1)
    }
    return text
}

FNR == 1 {
    depth = 0
    split(FILENAME, path, "/")
    crate = path[2]
    module = path[4]
    sub(/\.[a-z]*$/, "", module)
    code = FILENAME ~ /\.rt$/
    id = ""
    base = 0
}
/^[ \t]*(ghost )?use / { imports(FILENAME, $0); next }
{ line = $0 }
code { sub(/\/\/.*/, "", line) }
# a clause of a contract, `ensures { .. }` or with a name before the brace, may go on over several lines; so may what a type promises of each value,
# `ghost invariant = { .. }`, `ghost view = { .. }` or a field `ghost name: { .. }`
code && depth { root[++count] = inside(line); root_file[count] = FILENAME; next }
code && match(line, /(^|[ \t])((requires|ensures)( \*)?( [a-z_0-9]+)?|ghost [a-z_0-9]+( =|:)) \{/) {
    depth = 1
    root[++count] = inside(substr(line, RSTART + RLENGTH))
    root_file[count] = FILENAME
}
code { next }
{ sub(/(^|[ \t])--.*/, "", line) }
line ~ /^[ \t]*$/ { next }
# the declarations of a section stand two columns further in; what the section is over belongs to each of them
{
    match(line, /^ */)
    indent = RLENGTH
    while (indent < base) base -= 2
    if (indent == base) line = substr(line, base + 1)
}
indent == base && line ~ /^(module _|mutual)/ {
    over[base + 2] = (base ? over[base] : "") " " line
    base += 2
    id = ""
    next
}
# a declaration: its name is the word before the colon, or the one behind `record` or `data`
indent == base && (line ~ /^(unfoldable |abbrev |pub |record |data )/ || line ~ /^[^ ]+ : /) {
    shown = line ~ /(^| )pub /
    data = line ~ /(^| )data /
    name = line
    while (name ~ /^(unfoldable|abbrev|pub|record|data) /) sub(/^[a-z]+ /, "", name)
    sub(/ .*/, "", name)
    id = name == "mod" ? "" : crate "/" module "/" name
    if (id != "") {
        means(FILENAME, name, id)
        home[id] = FILENAME
        if (base) body[id] = over[base]
        if (shown) public[id] = FILENAME ":" FNR
    }
}
# a constructor means its type, here and where it is imported
id != "" && data && indent == base + 2 && line ~ /^ *[^ ]+ : / {
    name = line
    sub(/^ */, "", name)
    sub(/ : .*/, "", name)
    means(FILENAME, name, id)
    owner[crate "/" module "/" name] = id
}
id != "" { body[id] = body[id] " " line }

# what the words of a text mean is reached
function reach(file, text,    list, n, i, to) {
    n = words(text, list)
    for (i = 1; i <= n; i++) {
        if (!((file, list[i]) in meaning)) continue
        to = meaning[file, list[i]]
        if (to in owner) to = owner[to]
        if (to in reached) continue
        reached[to] = 1
        queue[++last] = to
    }
}

END {
    for (i = 1; i <= count; i++) reach(root_file[i], root[i])
    for (first = 1; first <= last; first++) if (queue[first] in home) reach(home[queue[first]], body[queue[first]])
    for (id in public) if (!(id in reached)) print public[id] ": " id " is cited by no contract"
}
