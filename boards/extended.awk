# The look at a retargeted module: names each call whose result, or a narrow parameter of which, has no zeroext, and each place that calls one of them from
# within, where the attributes would have to stand, too; then, unless it stays on x86-64, each place that leaves it to the target how many bytes a pointer in
# memory has. The last line is the number of calls.
# Usage: awk -f boards/extended.awk MODULE.ll
/^target triple = "x86_64-/ { same = 1 }
/^define .*@braid_[a-z_]*\(/ {
    calls++
    name = $0
    sub(/.*@/, "", name)
    sub(/\(.*/, "", name)
    head = $0
    sub(/@braid_.*/, "", head)
    if (head ~ / (i1|i8|i16|i32) $/ && head !~ / zeroext (i1|i8|i16|i32) $/) print name ": the result has no zeroext"
    rest = $0
    sub(/^[^(]*\(/, "", rest)
    count = split(rest, part, /, /)
    for (i = 1; i <= count; i++) if (part[i] ~ /^(i1|i8|i16|i32) / && part[i] !~ /^i[0-9]+ zeroext /) print name ": parameter " i " has no zeroext"
}
/ call .*@braid_[a-z_]*\(/ { print "line " FNR ": a call from within the module" }
!same && / (alloca|load|store|getelementptr( inbounds| nuw| nusw)*) ([{[][^]%}]*)?ptr([] ,}]|$)/ && !/ (load|store) ptr[ ,]/ {
    print "line " FNR ": a pointer in memory that is laid out by the target"
}
END { print calls + 0 }
