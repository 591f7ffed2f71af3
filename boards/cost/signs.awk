# Looks, in the disassembly of a linked program, where the library turns the sign of a letter: an exclusive or with 128 on a byte, or on a vector of bytes. Each
# such place has a line 'PLACE: INSTRUCTION, conditional N, other M': the branches of the innermost loop around it, the loop's own among them. A place in no
# loop, or in one that has another loop in it, is left out: it takes the sign from a letter known to be back, or belongs to a loop that the compiler spread out.
# Usage: OBJDUMP -d --no-show-raw-insn PROGRAM | awk -f boards/cost/signs.awk
function hexadecimal(text,    i, number) {
    number = 0
    for (i = 1; i <= length(text); i++) {
        number = 16 * number + index("0123456789abcdef", substr(text, i, 1)) - 1
    }
    return number
}
function look(    i, k, first, last, inner, conditional, other) {
    for (i = 1; i <= count; i++) {
        if (!turns[i]) {
            continue
        }
        first = 0
        for (k = i; k <= count; k++) {
            if ((k in to) && to[k] in at && at[to[k]] <= i && (first == 0 || at[to[k]] > first)) {
                first = at[to[k]]
                last = k
            }
        }
        if (first == 0) {
            continue
        }
        inner = conditional = other = 0
        for (k = first; k <= last; k++) {
            if (k in to) {
                conditional += kind[k] == "conditional"
                other += kind[k] == "other"
                inner += k < last && to[k] in at && at[to[k]] <= k && at[to[k]] >= first
            }
        }
        if (!inner) {
            printf "%s+0x%x: %s, conditional %d, other %d\n", name, hexadecimal(address[i]) - hexadecimal(address[1]), text[i], conditional, other
        }
    }
}
/^[0-9a-f]+ <.*>:$/ {
    look()
    name = $2
    gsub(/^<|>:$/, "", name)
    count = 0
    split("", at)
    split("", to)
    split("", kind)
    split("", turns)
    # The library's own functions, and not those of the program that measures it.
    ours = name ~ /::/ || name ~ /^braid_/
    next
}
ours && /^ *[0-9a-f]+:\t/ {
    count++
    sub(/^ */, "")
    address[count] = substr($0, 1, index($0, ":") - 1)
    at[address[count]] = count
    sub(/^[0-9a-f]+:[ \t]*/, "")
    sub(/[ \t]*(@|\/\/).*$/, "")
    gsub(/[ \t]+/, " ")
    sub(/ *$/, "")
    text[count] = $0
    turns[count] = $0 ~ /^(eor|xor)[a-z.]* .*,( #)?(-?128|0x80)$/ || $0 ~ /^eor v[0-9]+\.(8|16)b,/
    if ($1 ~ /^((b|bl|bx|blx)\.?(eq|ne|cs|cc|hs|lo|mi|pl|vs|vc|hi|ls|ge|lt|gt|le|geu|ltu|gtu|leu|eqz|nez|gez|ltz|gtz|lez)(\.[nw])?|cbn?z|tbn?z)$/) {
        kind[count] = "conditional"
    } else if ($1 ~ /^(b|b\.[nw]|bl|blx|bx|br|blr|ret|j|jal|jr|jalr|call|tail|tb[bh])$/) {
        kind[count] = "other"
    } else {
        next
    }
    to[count] = match($0, /[0-9a-f]+ </) ? substr($0, RSTART, RLENGTH - 2) : "elsewhere"
}
END { look() }
