# Rewrites the library's LLVM module, as text, for another target: its triple and data layout, and, unless it stays on x86-64, without the attributes of that
# processor. The calls' narrow results and parameters get zeroext: on Arm and RISC-V a caller relies on the callee to fill the upper bits of a result, and the
# callee on the caller for a parameter.
# Wherever the module lays out memory a pointer has 8 bytes. What LLVM would lay out by the target is written by these places: a local pointer has room for 8
# bytes, and a pair with a pointer is loaded part by part, the second part at byte 8.
# Usage: awk -v triple=TRIPLE -v layout=LAYOUT -f boards/retarget.awk MODULE.ll
/^target datalayout = / { print "target datalayout = \"" layout "\""; next }
/^target triple = / { print "target triple = \"" triple "\""; next }
/^attributes #/ && triple !~ /^x86_64-/ { gsub(/ "(target-cpu|tune-cpu|target-features|probe-stack)"(="[^"]*")?/, "") }
/^define .*@braid_[a-z_]*\(/ {
    sub(/ i8 @braid_/, " zeroext&")
    gsub(/ zeroext zeroext /, " zeroext ")
    gsub(/i16 /, "i16 zeroext ")
    gsub(/i16 zeroext zeroext /, "i16 zeroext ")
}
triple !~ /^x86_64-/ && / = alloca ptr, align 8$/ { sub(/alloca ptr/, "alloca [8 x i8]") }
triple !~ /^x86_64-/ && /^  %[a-z0-9]+ = load \{ (i[0-9]+, ptr|ptr, i[0-9]+) \}, ptr %[a-z0-9]+, align 8$/ {
    name = $1
    first = $5
    second = $6
    from = $9
    sub(/,$/, "", first)
    sub(/,$/, "", from)
    print "  " name ".first = load " first ", ptr " from ", align 8"
    print "  " name ".at = getelementptr i8, ptr " from ", i64 8"
    print "  " name ".second = load " second ", ptr " name ".at, align 8"
    print "  " name ".half = insertvalue { " first ", " second " } poison, " first " " name ".first, 0"
    print "  " name " = insertvalue { " first ", " second " } " name ".half, " second " " name ".second, 1"
    next
}
{ print }
