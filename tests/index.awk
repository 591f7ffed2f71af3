# docs/INDEX.md, from the comments and contracts of the crates; see tests/index.sh, which hands over the files in the order in which they are read here:
# the specification, the definitions, the laws, the cases, the services, and last the wrong versions as tests/versions.awk lists them.
# With `faults` set it prints what is wrong with the sections in their place: a definition without one, or one that the specification does not have.

# TEXT

# a text in lines of at most 160 bytes, the first after `mark`, the others indented under it
function wrapped(mark, text,    words, n, i, line, rest) {
    rest = mark
    gsub(/./, " ", rest)
    n = split(text, words, " ")
    line = mark
    for (i = 1; i <= n; i++) {
        if (length(line) + length(words[i]) > 158 && line != mark && line != rest) {
            sub(/ +$/, "", line)
            print line
            line = rest
        }
        line = line words[i] " "
    }
    sub(/ +$/, "", line)
    print line
}

# words of a comment as they are, in a page: a backslash stands for itself
function plain(text,    at, done) {
    while ((at = index(text, "\\"))) {
        done = done substr(text, 1, at) "\\"
        text = substr(text, at + 1)
    }
    return done text
}

# SECTIONS

# the sections that a text begins with, with a space before and after each: `6.2, 6.15, 6.16: ..`, `3.2, where ..`, `5.4 to 5.6: ..`, `2.4 and 6.11: ..`;
# `left` is what follows them
function sections(text,    found, one, from) {
    found = " "
    from = ""
    while (match(text, /^[0-9]+(\.[0-9]+)?/)) {
        one = substr(text, 1, RLENGTH)
        text = substr(text, RLENGTH + 1)
        found = found (from == "" ? one : between(from, one)) " "
        from = ""
        if (text ~ /^, [0-9]+(\.[0-9]+)?([,:. ]|$)/) text = substr(text, 3)
        else if (text ~ /^ and [0-9]/) text = substr(text, 6)
        else if (text ~ /^ to [0-9]/) { from = one; text = substr(text, 5) }
        else break
    }
    left = text
    return found
}

# of `5.4 to 5.6`, what comes after 5.4
function between(from, to,    i, found, a, b) {
    split(from, a, ".")
    split(to, b, ".")
    for (i = a[2] + 1; i <= b[2]; i++) found = found (found == "" ? "" : " ") a[1] "." i
    return found
}

# of the comment of a definition: only what stands before a colon or a comma, so that `64 logs` is none, nor a number without a point but before a colon
function own_sections(text,    found) {
    found = " "
    left = text
    if (text ~ /^[0-9]+:/ || text ~ /^[0-9]+\.[0-9]+[,:]/) {
        found = sections(text)
        sub(/^[,:] /, "", left)
    }
    return found
}

# the sections after the word `specification`, with which a comment may begin; and those in the brackets of a heading, where `left` is what follows these
function after_word(text) {
    sub(/Specification/, "specification", text)
    if (match(text, /specification [0-9]/)) return sections(substr(text, RSTART + 14))
    return " "
}
function in_brackets(text,    found) {
    left = ""
    if (!match(text, /\((specification )?[0-9]/)) return " "
    found = sections(substr(text, RSTART + RLENGTH - 1))
    if (!sub(/^\)[,:] /, "", left)) left = ""
    return found
}

function fault(text) { if (faults) print text }

# an entry of a kind under each of the sections
function enter(kind, where, mark, text, from,    list, n, i) {
    n = split(where, list, " ")
    for (i = 1; i <= n; i++) {
        if (!(list[i] in title)) { if (from != "") fault(from ": the specification has no section " list[i]); continue }
        count[kind, list[i]]++
        entry[kind, list[i], count[kind, list[i]]] = text
        entry_mark[kind, list[i], count[kind, list[i]]] = mark
    }
}

# DEFINITIONS

# a group of definitions under one comment is done
function group_done(    where, from, list, n, text) {
    if (names == "") return
    from = crate "/specs/" file
    where = own != " " ? own : under != " " ? under : head_sections
    n = split(where, list, " ")
    if (crate == "model" && own == " " && under == " " && n != 1) {
        fault("crates/" from ": no section in the comment of" names)
        where = " "
    }
    sub(/^ /, "", names)
    if (crate == "theory") {
        statements++
        statement_names[statements] = names
        statement_where[statements] = where
        statement_file[statements] = file
        statement_text[statements] = comment
    } else if (n) {
        text = "`" (crate == "model" ? file : from) "`: " listed_names(names) (comment == "" ? "" : ": " plain(comment))
        enter("definition", where, "- ", text, "crates/" from)
    }
    names = ""
}

function listed_names(text,    list, n, i, found) {
    n = split(text, list, " ")
    for (i = 1; i <= n; i++) found = found (i > 1 ? ", " : "") "`" list[i] "`"
    return found
}

function indentation(line) {
    match(line, /^ */)
    return RLENGTH
}

# FILES

FNR == 1 {
    if (kind == "specs") { group_done(); promise_done() }
    if (kind == "proofs") law_done()
    n = split(FILENAME, path, "/")
    file = path[n]
    crate = path[n - 2]
    kind = path[n - 1]
    if (file == "SPECIFICATION.md") kind = "specification"
    in_head = 1
    head = pending = own = under = comment = names = law = promise = field = ""
    own = under = head_sections = " "
    fields = -1
    split("", cites)
    function_name = ""
}

kind == "specification" && /^##+ [0-9]/ {
    id = $2
    sub(/\.$/, "", id)
    text = $0
    sub(/^##+ [0-9.]+ /, "", text)
    title[id] = text
    level[id] = $1
    section[++section_count] = id
    next
}
kind == "specification" { next }

# the comment at the head of a file
(kind == "specs" || kind == "proofs") && in_head {
    if (/^--/) { head = head (head == "" ? "" : " ") substr($0, 4); next }
    in_head = 0
    head_sections = after_word(head)
    if (kind == "specs" && head !~ /^Specification/) head_sections = " "
    if (kind == "proofs" && file !~ /^Lib\.antt$/ && (crate == "theory" || crate == "model") && head != "") {
        files[crate]++
        file_name[crate, files[crate]] = file
        file_head[crate, files[crate]] = head
    }
}

# who cites the statements of the theory
kind == "specs" && crate != "theory" && /^use Rattle\.theory\.specs\./ {
    line = $0
    sub(/^[^{]*\{/, "", line)
    sub(/\}.*/, "", line)
    m = split(line, imported, ", ")
    for (i = 1; i <= m; i++) cited[imported[i]] = cited[imported[i]] (cited[imported[i]] == "" ? "" : ", ") "`" crate "/specs/" file "`"
    next
}

# THE PROMISES OF SERVICES: the fields of a record `..Promise`, each with the definitions that it cites

kind == "specs" && /^use Rattle\./ && !/^use Rattle\.std\./ {
    line = $0
    sub(/^use Rattle\./, "", line)
    imports(line)
}
# what a line of imports brings in: where each name is from
function imports(line,    from, module, imported, m, i, as, name) {
    from = line
    sub(/\..*/, "", from)
    sub(/^[^{]*specs\./, "", line)
    module = line
    sub(/\..*/, "", module)
    sub(/^[^{]*\{/, "", line)
    sub(/\}.*/, "", line)
    m = split(line, imported, ", ")
    for (i = 1; i <= m; i++) {
        as = name = imported[i]
        sub(/ as .*/, "", name)
        sub(/.* as /, "", as)
        cites[as] = from SUBSEP module ".antt" SUBSEP name
    }
}
# the definitions that a text cites
function cited_in(text,    tokens, m, i, seen_here, place, module, found) {
    gsub(/[^A-Za-z0-9_-]+/, " ", text)
    m = split(text, tokens, " ")
    found = ""
    for (i = 1; i <= m; i++) if (tokens[i] in cites && !(tokens[i] in seen_here)) {
        seen_here[tokens[i]] = 1
        split(cites[tokens[i]], place, SUBSEP)
        module = place[2]
        sub(/\.antt$/, "", module)
        found = found (found == "" ? "" : ", ") "`" (place[1] == "model" ? "" : place[1] "/") module "." place[3] "`"
    }
    return found
}
function promise_done() {
    if (field == "") return
    sub(/_is$/, "", field)
    promised[promise] = promised[promise] (promised[promise] == "" ? "" : "\n") "  - `" field "`\t" cited_in(field_text)
    promised_names[promise] = promised_names[promise] (promised_names[promise] == "" ? "" : ", ") "`" field "`"
    field = ""
}
kind == "specs" && /^[^ ]/ { promise_done(); promise = "" }
kind == "specs" && promise != "" && /^ +pub [a-z_]+ :/ { promise_done(); field = $2; field_text = "" }
kind == "specs" && promise != "" && field != "" { field_text = field_text " " $0 }
kind == "specs" && /^pub record [A-Za-z]+Promise / { promise = crate SUBSEP file SUBSEP $3 }

# DEFINITIONS

kind == "specs" && /^ *-- / {
    line = $0
    sub(/^ *-- /, "", line)
    if (/^-- [A-Z][A-Z]/) {
        group_done()
        under = in_brackets(line)
        comment = left
        pending = ""
        own = " "
        next
    }
    if (fields >= 0 && indentation($0) > fields) next
    pending = pending (pending == "" ? "" : " ") line
    next
}
kind == "specs" && /^ *$/ { pending = ""; next }
kind == "specs" {
    if (fields >= 0 && indentation($0) <= fields) fields = -1
    if (fields >= 0) next
    if (match($0, /^ *(abbrev |unfoldable )?pub (data |record )?/)) {
        name = substr($0, RLENGTH + 1)
        sub(/ .*/, "", name)
        if (name != "mod") {
            if (pending != "") {
                group_done()
                own = own_sections(pending)
                comment = left
                pending = ""
            }
            names = names " " name
            defined[crate, file, name] = 1
            cites[name] = crate SUBSEP file SUBSEP name
            section_of[crate, file, name] = own != " " ? own : under != " " ? under : head_sections
        }
        if (/^ *pub record /) fields = indentation($0)
    } else if (!/^ *(abbrev )?mutual$/ && !/^infix/ && !/^ *module /) pending = ""
    next
}

# LAWS

# a public law of the theory is known to its end: which statements its conclusion has
function law_done(    parts, n, i, depth, last, opened, closed, words, m, seen) {
    if (law == "") return
    n = split(law, parts, " → ")
    depth = 0
    last = ""
    for (i = 1; i <= n; i++) {
        last = depth == 0 ? parts[i] : last " → " parts[i]
        opened = parts[i]
        closed = parts[i]
        depth += gsub(/[({]/, "", opened) - gsub(/[)}]/, "", closed)
    }
    gsub(/[^A-Za-z0-9_-]+/, " ", last)
    m = split(last, words, " ")
    for (i = 1; i <= m; i++) if (!(words[i] in seen)) {
        seen[words[i]] = 1
        proved[words[i]] = proved[words[i]] (proved[words[i]] == "" ? "" : ", ") "`" law_name "` of `" file "`"
    }
    law = ""
}
kind == "proofs" && crate == "theory" {
    if (fields >= 0 && !/^ *$/ && indentation($0) <= fields) fields = -1
    if (match($0, /^ *pub [^ ]+ : /) && fields < 0) {
        law_done()
        law_name = substr($0, 1, RLENGTH - 3)
        sub(/^ *pub /, "", law_name)
        law = substr($0, RLENGTH + 1)
        next
    }
    if (law != "" && /^ *→/) { line = $0; sub(/^ */, "", line); law = law " " line; next }
    law_done()
    if (/^ *(pub )?record /) fields = indentation($0)
}

# CASES

kind == "proofs" && file ~ /(Cases|^Sheet)\.antt$/ {
    if (/^-- /) { pending = pending (pending == "" ? "" : " ") substr($0, 4); next }
    if (/^abbrev pub [^ ]+ : List .*Case$/) {
        case_names[crate, file] = case_names[crate, file] (case_names[crate, file] == "" ? "" : " ") $3
        if (!((crate, file) in case_where)) {
            case_where[crate, file] = after_word(head)
            case_head[crate, file] = head
            case_file[++case_files] = crate SUBSEP file
        }
    }
    pending = ""
}

# SERVICES

kind == "src" && /^ghost use Rattle\./ && !/^ghost use Rattle\.std\./ {
    line = $0
    sub(/^ghost use Rattle\./, "", line)
    imports(line)
    next
}
kind == "src" && /^pub (extern "C" )?fn / {
    function_name = $0
    sub(/^pub (extern "C" )?fn /, "", function_name)
    sub(/[(<].*/, "", function_name)
    held = ""
    held_names = ""
    service = ""
    next
}
kind == "src" && /^    ensures / { meant = / Meant / }
kind == "src" && /[ (][A-Za-z]+Promise / && function_name != "" {
    line = $0
    match(line, /[ (][A-Za-z]+Promise /)
    stated = cites[substr(line, RSTART + 1, RLENGTH - 2)]
    service = meant ? "told" : "stated"
    held = promised[stated]
    held_names = promised_names[stated]
    next
}
kind == "src" && /^\{/ {
    if (service == "stated") {
        module = file
        sub(/\.rt$/, "", module)
        split(stated, place, SUBSEP)
        where = stated == "" ? " " : section_of[place[1], place[2], place[3]]
        if (where == " " || where == "") fault("crates/" crate "/src/" file ": no section for the service " function_name)
        else {
            enter("promise", where, "- ", "`" crate "::" module "::" function_name "`", "crates/" crate "/src/" file)
            m = split(held, clauses, "\n")
            for (i = 1; i <= m; i++) {
                split(clauses[i], part, "\t")
                enter("promise", where, "  - ", substr(part[1], 5) ": " part[2], "")
            }
            if (index(crate_sections[crate] " ", " " substr(where, 2)) == 0) crate_sections[crate] = crate_sections[crate] " " substr(where, 2)
        }
    } else if (service == "told") {
        split(stated, place, SUBSEP)
        enter("promise", "8.3", "- ", "`" function_name "` (`" crate "/src/" file "`): " held_names, "crates/" crate "/src/" file)
        crate_sections[crate] = " 8.3 "
    }
    service = ""
    function_name = ""
}

# WRONG VERSIONS, in fields between tabs

kind == "versions" {
    split($0, part, "\t")
    if (!(part[1] in versions)) version_crates[++version_count] = part[1]
    versions[part[1]] = versions[part[1]] (versions[part[1]] == "" ? "" : ", ") "`" part[3] "`"
    version_number[part[1]]++
}

# THE PAGE

function shown(kind, id, name,    i) {
    if (!count[kind, id]) return
    print name
    print ""
    for (i = 1; i <= count[kind, id]; i++) wrapped(entry_mark[kind, id, i], entry[kind, id, i])
    print ""
}

END {
    if (kind == "specs") group_done()
    law_done()
    for (i = 1; i <= statements; i++) {
        n = split(statement_names[i], list, " ")
        text = "`" statement_file[i] "`: "
        for (j = 1; j <= n; j++) {
            text = text (j > 1 ? ", " : "") "`" list[j] "`"
            about = proved[list[j]] == "" ? "" : "law " proved[list[j]]
            if (cited[list[j]] != "") about = about (about == "" ? "" : "; ") "cited in " cited[list[j]]
            if (about != "") text = text " (" about ")"
        }
        if (statement_text[i] != "") text = text ": " plain(statement_text[i])
        enter("theorem", statement_where[i], "- ", text, "crates/theory/specs/" statement_file[i])
    }
    for (i = 1; i <= case_files; i++) {
        split(case_file[i], place, SUBSEP)
        text = "`" (place[1] == "model" ? "" : place[1] "/proofs/") place[2] "`: " listed_names(case_names[place[1], place[2]])
        enter("case", case_where[place[1], place[2]], "- ", text, "crates/" place[1] "/proofs/" place[2])
    }
    for (i = 1; i <= version_count; i++) {
        c = version_crates[i]
        if (crate_sections[c] != "") {
            enter("version", crate_sections[c], "- ", "`" c "`: " versions[c], "")
            placed[c] = 1
        }
    }
    if (faults) exit

    for (i = 1; i <= section_count; i++) {
        id = section[i]
        if (!count["definition", id] && !count["promise", id] && !count["theorem", id] && !count["case", id]) {
            continue
        }
        print "## " id " " title[id]
        print ""
        shown("definition", id, "Definitions:")
        shown("promise", id, "Promises:")
        shown("theorem", id, "Theorems:")
        shown("case", id, "Cases:")
        shown("version", id, "Wrong versions:")
    }
    print "## Wrong versions of the other crates"
    print ""
    for (i = 1; i <= version_count; i++) {
        c = version_crates[i]
        if (!(c in placed)) wrapped("- ", "`" c "`: " versions[c])
    }
    print ""
    print "## The files of the theory"
    print ""
    print "Under `crates/theory/proofs`, each by its first lines."
    print ""
    for (i = 1; i <= files["theory"]; i++) wrapped("- ", "`" file_name["theory", i] "`: " plain(file_head["theory", i]))
    print ""
    print "## The laws of the definitions"
    print ""
    print "Under `crates/model/proofs`, each by its first lines."
    print ""
    for (i = 1; i <= files["model"]; i++) wrapped("- ", "`" file_name["model", i] "`: " plain(file_head["model", i]))
}
