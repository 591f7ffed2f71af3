# Names the edges of a module that clang compiled with -fsanitize-coverage=trace-pc-guard and wrote as text: one to a line, in the order of their guards.
# Usage: awk -f coverage.awk MODULE.ll
# A name has a function and the outcome of a condition in it, as in `bits::write_field: (a2 = 0) is true`. The condition is written out from the instructions
# that it is made of, to a small depth; what lies deeper is `..`. There a0 is the function's first argument, i8[p] the byte at p, phi(x, y) the value that comes
# from one of several places, and s< compares signed numbers. Where the edge leaves another function that the compiler put into this one, the name says that it
# ends. No number of a value or of a block stands in a name, so that it stays as it is for as long as its function does. Edges of one function that would have
# the same name are told apart by `(1 of 2)`, in the order of the code.

function fail(text) {
    print "coverage.awk: line " FNR " of " FILENAME ": " text > "/dev/stderr"
    failed = 1
    exit 1
}

function trimmed(text) {
    sub(/^ +/, "", text)
    sub(/ +$/, "", text)
    return text
}

# The parts of a text between the commas that stand in no bracket.
function parts(text, list,    n, i, c, depth, from) {
    n = 0
    depth = 0
    from = 1
    for (i = 1; i <= length(text); i++) {
        c = substr(text, i, 1)
        if (index("([{<", c)) depth++
        else if (index(")]}>", c)) depth--
        else if (c == "," && depth == 0) {
            list[++n] = trimmed(substr(text, from, i - from))
            from = i + 1
        }
    }
    list[++n] = trimmed(substr(text, from))
    return n
}

# The value of an operand that has its type before it.
function operand(text) {
    if (text ~ /\)$/) return "constant"
    sub(/.* /, "", text)
    return text
}

# The name that stands behind the first @ of a text, without quotes.
function global_name(text) {
    if (match(text, /@"[^"]*"/)) return substr(text, RSTART + 2, RLENGTH - 3)
    if (match(text, /@[-A-Za-z0-9_.$]+/)) return substr(text, RSTART + 1, RLENGTH - 1)
    return "pointer"
}

# What stands between the bracket behind the first @ of a text and its end.
function arguments_of(text,    i, c, depth, from) {
    from = index(text, "@")
    depth = 0
    for (i = from; i <= length(text); i++) {
        c = substr(text, i, 1)
        if (c == "(" && depth++ == 0) from = i + 1
        if (c == ")" && --depth == 0) return substr(text, from, i - from)
    }
    fail("a bracket does not end in: " text)
}

# An instruction without what says nothing of its value: metadata, attributes, alignment and flags.
function plain(text) {
    while (sub(/, ![-A-Za-z_.0-9]+ ![0-9]+$/, "", text)) {}
    sub(/ #[0-9]+$/, "", text)
    sub(/, align [0-9]+$/, "", text)
    sub(/^(tail|musttail|notail) /, "", text)
    while (sub(/ (inbounds|nuw|nsw|nusw|exact|disjoint|samesign|nneg|noundef|zeroext|signext|fastcc|range\([^)]*\)) /, " ", text)) {}
    return text
}

# A value as an expression.
function shown(value, depth,    text, code, list, n, i, out) {
    if (value !~ /^%/) return value
    if (value in argument) return argument[value]
    if (!(value in made)) fail(value " is used in " name " and made nowhere")
    text = plain(made[value])
    code = text
    sub(/ .*/, "", code)
    text = substr(text, length(code) + 2)
    if (code == "zext" || code == "sext" || code == "freeze") {
        sub(/ to .*/, "", text)
        return shown(operand(text), depth)
    }
    if (code == "alloca") return "local"
    if (code == "call" && text !~ /@llvm\./) return global_name(text) "()"
    if (depth == 0) return ".."
    out = ""
    if (code == "call") {
        code = global_name(text)
        sub(/^llvm\./, "", code)
        sub(/\.i[0-9]+$/, "", code)
        n = parts(arguments_of(text), list)
        for (i = 1; i <= n; i++) out = out (i > 1 ? ", " : "") shown(operand(list[i]), depth - 1)
        return code "(" out ")"
    }
    n = parts(text, list)
    if (code == "phi") {
        for (i = 1; i <= n; i++) {
            text = list[i]
            sub(/^.*\[ /, "", text)
            sub(/, %[^ ]+ \]$/, "", text)
            out = out (i > 1 ? ", " : "") shown(text, 0)
        }
        return "phi(" out ")"
    }
    if (code == "icmp") {
        i = text
        sub(/ .*/, "", i)
        return "(" shown(operand(list[1]), depth - 1) " " relation[i] " " shown(list[2], depth - 1) ")"
    }
    if (code in operator) return "(" shown(operand(list[1]), depth - 1) " " operator[code] " " shown(list[2], depth - 1) ")"
    if (code == "trunc") {
        i = text
        sub(/.* to /, "", i)
        sub(/ to .*/, "", text)
        return i "(" shown(operand(text), depth - 1) ")"
    }
    if (code == "load") return list[1] "[" shown(operand(list[2]), depth - 1) "]"
    if (code == "getelementptr") {
        for (i = 2; i <= n; i++) out = out (i > 2 ? " + " : "") shown(operand(list[i]), depth - 1)
        return n > 2 ? "(" out ")" : out
    }
    if (code == "select") {
        for (i = 1; i <= n; i++) out = out (i == 1 ? "" : i == 2 ? " ? " : " : ") shown(operand(list[i]), depth - 1)
        return "(" out ")"
    }
    if (code == "extractvalue") return shown(operand(list[1]), depth - 1) "." list[2]
    return code "(..)"
}

# What must be for a block to be followed by another: an outcome of the condition that it ends with. A block that is followed by one alone passes on what it
# was come to by.
function outcome(from, to,    text, list, n, i, out, value) {
    text = last[from]
    if (text ~ /^br label /) return come_to(from)
    if (text ~ /^br i1 /) {
        n = parts(substr(text, 4), list)
        value = shown(operand(list[1]), depth_shown)
        return value (operand(list[2]) == to ? " is true" : " is false")
    }
    if (text !~ /^switch /) fail("a block of " name " ends in a way that this program does not know: " text)
    i = index(text, "[")
    n = parts(substr(text, 8, i - 8), list)
    value = shown(operand(list[1]), depth_shown)
    out = ""
    text = substr(text, i + 1)
    if (operand(list[2]) == to) {
        while (match(text, /i[0-9]+ -?[0-9]+, label/)) {
            out = out (out == "" ? "" : ", ") operand(substr(text, RSTART, RLENGTH - 7))
            text = substr(text, RSTART + RLENGTH)
        }
        return value " is none of " out
    }
    while (match(text, /i[0-9]+ -?[0-9]+, label %[^ ]+/)) {
        n = parts(substr(text, RSTART, RLENGTH), list)
        if (operand(list[2]) == to) out = out (out == "" ? "" : " or ") operand(list[1])
        text = substr(text, RSTART + RLENGTH)
    }
    return value " is " out
}

# How a block is come to.
function come_to(block,    i, out) {
    if (block == 1) return "entered"
    if (block in under_way) return "again"
    under_way[block] = 1
    out = ""
    for (i = 1; i <= befores[block]; i++) out = out (i > 1 ? ", or " : "") outcome(before[block, i], label[block])
    delete under_way[block]
    return out
}

# Notes the block before each block, by the labels that a block's end names.
function note_before(block,    text, to) {
    text = last[block]
    while (match(text, /label %[^ ,]+/)) {
        to = substr(text, RSTART + 6, RLENGTH - 6)
        text = substr(text, RSTART + RLENGTH)
        if (!(to in at)) fail(to " is named in " name " and is no block")
        to = at[to]
        if (befores[to] == 0 || before[to, befores[to]] != block) before[to, ++befores[to]] = block
    }
}

# The function whose code, put into this one by the compiler, ends with a block. The compiler names the block behind that code `FUNCTION.exit`.
function ended(block,    to) {
    to = last[block] ~ /^br label / ? operand(last[block]) : label[block]
    if (to !~ /^%"?([A-Za-z0-9_]+::)+[A-Za-z0-9_]+\.exit[.0-9i]*"?$/) return ""
    sub(/^%"?/, "", to)
    sub(/\.exit.*/, "", to)
    return ", and " to " ends"
}

# Names the edges of a function whose code was read.
function name_edges(    b, text, same, told) {
    for (b = 1; b <= blocks; b++) note_before(b)
    split("", same)
    split("", told)
    for (b = 1; b <= blocks; b++) {
        if (!(b in guard)) continue
        text[b] = come_to(b) ended(b)
        same[text[b]]++
    }
    for (b = 1; b <= blocks; b++) {
        if (!(b in guard)) continue
        edge[guard[b]] = name ": " text[b] (same[text[b]] > 1 ? " (" ++told[text[b]] " of " same[text[b]] ")" : "")
    }
}

BEGIN {
    n = split("eq = ne != ult < ule <= ugt > uge >= slt s< sle s<= sgt s> sge s>=", words, " ")
    for (i = 1; i < n; i += 2) relation[words[i]] = words[i + 1]
    n = split("add + sub - mul * udiv / urem % sdiv s/ srem s% shl << lshr >> ashr s>> and & or | xor ^", words, " ")
    for (i = 1; i < n; i += 2) operator[words[i]] = words[i + 1]
    depth_shown = 4
}

# A name between quotes may have spaces, commas and brackets in it, as that of a generic function: without them it is one word.
inside || /^define / {
    text = $0
    out = ""
    while (match(text, /"[^"]*"/)) {
        value = substr(text, RSTART, RLENGTH)
        gsub(/[][ ,(){}<>]/, "", value)
        out = out substr(text, 1, RSTART - 1) value
        text = substr(text, RSTART + RLENGTH)
    }
    $0 = out text
}

# The guards of a function stand in an array of its own, and the arrays one behind the other in the order of the text.
/^@__sancov_gen_/ {
    match($0, /\[[0-9]+ x i32\]/)
    first_guard[$1] = guards + 0
    guards += substr($0, RSTART + 1)
    next
}

/^define / {
    inside = 1
    name = global_name($0)
    split("", argument)
    n = parts(arguments_of($0), list)
    for (i = 1; i <= n; i++) {
        value = operand(list[i])
        if (value ~ /^%/) argument[value] = value ~ /^%[0-9]+$/ ? "argument " i : substr(value, 2)
    }
    split("", made)
    split("", label)
    split("", at)
    split("", last)
    split("", guard)
    split("", before)
    split("", befores)
    blocks = 0
    next
}

!inside { next }

/^}/ {
    name_edges()
    inside = 0
    next
}

{ sub(/ +; preds = .*$/, "") }

# A label begins a block; the first one may have none.
/^[^ ]+:$/ {
    blocks++
    label[blocks] = "%" substr($0, 1, length($0) - 1)
    at[label[blocks]] = blocks
    next
}

blocks == 0 && NF > 0 { blocks = 1 }

/call void @__sanitizer_cov_trace_pc_guard\(/ {
    if (!match($0, /@__sancov_gen_[.0-9]*/)) fail("a call on an edge has no guard that this program knows")
    array = substr($0, RSTART, RLENGTH)
    text = substr($0, RSTART + RLENGTH)
    unit = $0 ~ /\[[0-9]+ x i32\]/ ? 1 : 4
    offset = 0
    if (text !~ /^\)/) {
        if (!match(text, /i64 [0-9]+\)/)) fail("the place of a guard is not one that this program knows")
        offset = substr(text, RSTART + 4) / unit
    }
    guard[blocks] = first_guard[array] + offset
    next
}

/^  %[^ ]+ = / {
    made[$1] = substr($0, length($1) + 6)
    next
}

/^  (br|switch|ret|unreachable|invoke|callbr|indirectbr|resume|cleanupret|catchret|catchswitch)( |$)/ {
    last[blocks] = plain(substr($0, 3))
    in_switch = last[blocks] ~ /^switch .*\[$/
    next
}

in_switch {
    last[blocks] = last[blocks] " " trimmed($0)
    if ($0 ~ /^ *\]/) in_switch = 0
}

END {
    if (failed) exit 1
    for (i = 0; i < guards; i++) {
        if (!(i in edge)) fail("no edge has guard " i)
        print edge[i]
    }
}
