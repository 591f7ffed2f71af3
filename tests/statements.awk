# Each function of a source file of Rattle with more than `most` statements, a line each. A statement ends in `;`, or is a head: if, match, while, loop, for.
# A `return` that a block begins with belongs to the block's head, and the value that a block ends with is no statement.
{
    code = $0
    sub(/\/\/.*/, "", code)
    gsub(/\[[^][;]*;[^][]*\]/, "", code)
}
code ~ /^ *(pub )?(extern "C" )?fn / {
    match(code, /^ */)
    margin = substr(code, 1, RLENGTH)
    name = code
    sub(/.*fn /, "", name)
    sub(/[(<].*/, "", name)
    inside = 0
    statements = 0
}
# a clause that goes on over lines of its own is none of the function's body
name != "" && !inside && code ~ /^ *(requires|ensures)[^{]*\{$/ { clause = 1; next }
clause { if (code ~ /^ *\}$/) clause = 0; next }
name != "" && !inside && (code == margin "{" || code ~ /\{$/) { inside = 1; opened = 1; next }
inside && code == margin "}" {
    if (statements > most) print FILENAME ": " name " has " statements " statements, more than " most
    inside = 0
    name = ""
}
inside && code !~ /^ *$/ {
    if (opened && code ~ /^ *return /) passed = 1
    ends = gsub(/;/, ";", code)
    if (ends && passed) { ends--; passed = 0 }
    heads = gsub(/(^|[^a-z_])(if|match|while|for) |(^|[^a-z_])loop \{/, "&", code)
    statements += ends + heads
    opened = code ~ /\{$/
}
