# awk -f narrow.awk -v layout=L -v triple=T MODULE: the text of the module that the proofs are about, which is for x86-64, for
# another little-endian target whose pointers have 32 bits. Lengths stay 64 bits wide; only the sizes of copies, which must be
# constants but in one function, become 32 bits. A line goes through only in a form that means the same there, and the first one in any
# other form is refused, with what is wrong with it.
#
# What the forms rest on: a pointer in memory lies in a place of 8 bytes, of which 4 are then used, so a place that is made for a
# pointer alone is stored to and loaded from as a pointer and nothing else, and no address is that of a pointer here and of a
# number there; memory is otherwise made as bytes; steps of an address are counted in bytes; and no pointer becomes a number but in
# the standard library's copy of bytes and of numbers of 64 bits (`copies`). It asks whether the bytes that it writes begin among those
# that it reads: the difference of the two addresses, as numbers of 64 bits, is below the length. With addresses of 32 bits, which become
# such numbers by zeros, it is so in the same places, and the length of what lies in their memory has 32 bits. Whether a
# pointer is null, which a C caller may pass with the length 0, is asked in both by one question. A pair, as a function gives back a
# slice or two numbers, has its parts at the same bytes in both: behind a pointer stands only a number of 64 bits, at byte 8, and
# tools/build-for takes no target where such a number lies elsewhere. A tag with a pointer behind it, as a function gives back an item or
# none, is loaded from memory part by part, the pointer from byte 8.

function refuse(what) {
    printf "the module can't be turned: %s, at its line %d: %s\n", what, NR, $0 >"/dev/stderr"
    refused = 1
    exit 1
}

BEGIN {
    whole = "i(1|8|16|32|64)"
    type = "(" whole "|ptr)"
    loaded = "\\{ (ptr, i64|i(8|16|32|64), i(8|16|32|64)) \\}"
    pair = "\\{ (ptr, i64|i8, ptr|i(8|16|32|64), i(8|16|32|64)) \\}"
    reg = "%[A-Za-z0-9_.]+"
    value = "(" reg "|-?[0-9]+|true|false)"
    name = "@(\"[^\"]*\"|[A-Za-z0-9_.]+)"
    set = "^  " reg " = "
    at = ", align [0-9]+"
    given = type "( noundef)?( zeroext)? " value
    list = "\\((" given "(, " given ")*)?\\)"

    form[++forms] = set "alloca (" type "|\\[[0-9]+ x i8\\])" at "$"
    form[++forms] = set "load " type ", ptr " reg at "(, !range ![0-9]+)?(, !noundef ![0-9]+)?$"
    form[++forms] = set "load " loaded ", ptr " reg at "$"
    form[++forms] = set "extractvalue " pair " " reg ", [01]$"
    form[++forms] = "^  store " type " " value ", ptr " reg at "$"
    form[++forms] = "^  store ptr " name ", ptr " reg at "$"
    form[++forms] = set "getelementptr( inbounds)?( nuw)? i8, ptr " reg ", i64 " value "$"
    form[++forms] = set "(add|sub|mul|shl|lshr|udiv|urem|and|or|xor)( nuw)?( nsw)?( exact)?( disjoint)? " whole " " value ", " value "$"
    form[++forms] = set "icmp (eq|ne|ult|ule|ugt|uge|slt|sle|sgt|sge) " whole " " value ", " value "$"
    form[++forms] = set "icmp eq ptr " reg ", null$"
    form[++forms] = set "(zext|sext|trunc)( nuw)?( nsw)?( nneg)? " whole " " value " to " whole "$"
    form[++forms] = "^  br (label " reg "|i1 " value ", label " reg ", label " reg ")$"
    form[++forms] = "^  switch " whole " " value ", label " reg " \\[$"
    form[++forms] = "^    " whole " -?[0-9]+, label " reg "$"
    form[++forms] = "^  (\\]|unreachable|ret void|ret " type " " value "|ret " pair " " reg ")$"
    form[++forms] = "^  (" reg " = )?call (void|" type "|" pair ") " name list "$"
    form[++forms] = "^define (internal )?(noundef )?(zeroext )?(void|" type "|" pair ") " name list " #[0-9]+ \\{$"
    form[++forms] = "^" name " = private unnamed_addr constant \\[[0-9]+ x i8\\] (c\"[^\"]*\"|zeroinitializer), align [1248]$"
    form[++forms] = "^([A-Za-z0-9_.]+:( +; (preds = .*|No predecessors!))?|\\}|;.*)?$"
    form[++forms] = "^(source_filename = \".*\"|![0-9]+ = !\\{(!\".*\"|i8 [0-9]+, i8 [0-9]+)?\\}|!llvm\\.ident = .*)$"
}

/^define/ {
    split("", pointer)
    split("", holds)
    copies = /^define internal void @"core::ptr::copy_drop::copy_bits::<i(8|64)>"\(ptr noundef %a0, ptr noundef %a1, i64 noundef %a2\) /
}
/ = alloca ptr,/ { pointer[$1] = 1 }

# A tag and a pointer behind it, at byte 8: each is loaded by itself.
/^  %[A-Za-z0-9_.]+ = load \{ i8, ptr \}, ptr %[A-Za-z0-9_.]+, align 8$/ {
    place = $9
    sub(/,$/, "", place)
    if (place in pointer) refuse("the place of a pointer that is used as something else")
    if (place in holds && holds[place] != "a number") refuse("an address of a pointer and of a number")
    holds[place] = "a number"
    print "  " $1 ".tag = load i8, ptr " place ", align 8"
    print "  " $1 ".at = getelementptr i8, ptr " place ", i64 8"
    print "  " $1 ".behind = load ptr, ptr " $1 ".at, align 8"
    print "  " $1 ".half = insertvalue { i8, ptr } poison, i8 " $1 ".tag, 0"
    print "  " $1 " = insertvalue { i8, ptr } " $1 ".half, ptr " $1 ".behind, 1"
    next
}

copies && /^  %r[0-9]+ = ptrtoaddr ptr %a[01] to i64$/ {
    sub(/ptrtoaddr/, "ptrtoint")
    print
    next
}
copies && /^  call void @llvm\.memmove\.p0\.p0\.i64\(ptr %a1, ptr %a0, i64 %r[0-9]+, i1 false\)$/ {
    match($0, /i64 %r[0-9]+/)
    size = substr($0, RSTART + 4, RLENGTH - 4)
    print "  " size ".narrow = trunc i64 " size " to i32"
    print "  call void @llvm.memmove.p0.p0.i32(ptr %a1, ptr %a0, i32 " size ".narrow, i1 false)"
    next
}
/ptrtoint|inttoptr|ptrtoaddr/ { refuse("a pointer that becomes a number, or a number that becomes a pointer") }

/^target datalayout = / { print "target datalayout = \"" layout "\""; next }
/^target triple = / { print "target triple = \"" triple "\""; next }
/^attributes #/ {
    rest = $0
    sub(/^attributes #[0-9]+ = \{/, "", rest)
    sub(/\}$/, "", rest)
    gsub(/"probe-stack"="inline-asm"|"stack-probe-size"="3072"|"target-cpu"="x86-64"|memory\([a-z: ,]*\)/, "", rest)
    gsub(/nounwind|noinline|alwaysinline|nocallback|nofree|willreturn|noreturn|cold/, "", rest)
    if (rest !~ /^ *$/) refuse("an attribute that is not known here")
    # What is said of one processor goes.
    gsub(/"[a-z-]*"="[^"]*" */, "")
    print
    next
}

/@llvm\.mem(move|set)\./ {
    if (/^declare/) gsub(/, i64,/, ", i32,")
    else if (!sub(/, i64 [0-9]+, i1 false\)$/, "&")) refuse("a copy whose size is no constant")
    else sub(/, i64 /, ", i32 ")
    if (!sub(/\.i64\(/, ".i32(")) refuse("an intrinsic that is not known here")
}
/@llvm\./ && !/@llvm\.(memmove\.p0\.p0\.i32|memset\.p0\.i32|trap)\(/ { refuse("an intrinsic that is not known here") }
/^declare/ {
    if (!/^declare void @llvm\./) refuse("a declaration that is not known here")
    print
    next
}

{
    known = 0
    for (i = 1; i <= forms && !known; i++) known = $0 ~ form[i]
    if (!known) refuse("a form that is not known here")
    rest = $0
    if (rest ~ / = alloca ptr,/) rest = ""
    # The place of a pointer: only what stands before it in these two forms may name something else.
    sub(/ = load ptr, ptr %[A-Za-z0-9_.]+,/, "", rest)
    if (rest ~ /^  store ptr /) sub(/, ptr %[A-Za-z0-9_.]+,/, "", rest)
    while (match(rest, /%[A-Za-z0-9_.]+/)) {
        if (substr(rest, RSTART, RLENGTH) in pointer) refuse("the place of a pointer that is used as something else")
        rest = substr(rest, RSTART + RLENGTH)
    }
    if (/^  (%[^ ]+ = load|store) / && match($0, /, ptr %[A-Za-z0-9_.]+/)) {
        address = substr($0, RSTART + 6, RLENGTH - 6)
        what = / = load (ptr|\{ ptr, i64 \}),|^  store ptr / ? "a pointer" : "a number"
        if (address in holds && holds[address] != what) refuse("an address of a pointer and of a number")
        holds[address] = what
    }
    print
}

END { if (!refused && NR == 0) { print "the module can't be turned: it is empty" >"/dev/stderr"; exit 1 } }
