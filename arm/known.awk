# awk -f known.awk MODULE.ll MODULE.ll (one file, read twice): refuses a module of which something is not known to mean the same
# on a 32-bit processor as on x86-64, for which it was made. A line, a word of a line or a size that is not named here is not known.
#
# Pointers have another width there, so nothing may see their width. A place in memory is of one of these kinds:
#   cell    a pointer alone (alloca ptr)
#   pair    a slice: a pointer and, 8 bytes further on, its length
#   length  that second part of a pair
#   plain   numbers: everything else
# The first reading finds the pairs. The second asks of every line that pointers are read and written in cells and pairs and
# numbers elsewhere, that a pointer which is kept leads to a plain place, and that a call hands over a pair exactly where the
# function takes one: so no place holds a pointer for one and a number for another, across calls too.
function refuse(why) { print "arm/known.awk: line " FNR ": " why ": " $0 >"/dev/stderr"; bad = 1 }

BEGIN {
    operations = "alloca load store getelementptr call ret br switch unreachable icmp zext trunc add sub mul udiv urem xor or and shl lshr extractvalue"
    others = "i1 i8 i16 i32 i64 ptr void x label to align nuw inbounds eq ne ult ule ugt uge true false"
    words = split(operations " " others, word, " ")
    for (i = 1; i <= words; i++) known[word[i]] = 1
}

# ---- the parts of a line

# The function that it defines or calls, and what stands between the parentheses, in operand[1] and on.
function read_call(    rest) {
    match($0, /@("[^"]*"|[A-Za-z0-9_.]+)\(/)
    name = substr($0, RSTART, RLENGTH - 1)
    rest = substr($0, RSTART + RLENGTH)
    sub(/\).*$/, "", rest)
    count = split(rest, operand, ", ")
}
function last_word(text) { sub(/^.* /, "", text); return text }
# The place that a load, a store or a getelementptr names.
function place_used(    text) {
    text = $0
    sub(/^.*, ptr /, "", text)
    sub(/,.*$/, "", text)
    return text
}
function kind_of(place) { return (f, place) in kind ? kind[f, place] : "plain" }
function kind_taken(name, i) { return (name, "%a" (i - 1)) in kind ? kind[name, "%a" (i - 1)] : "plain" }

# ---- the first reading: where pointers are kept, and what is copied or handed over as what, and so of the same kind

function is_pair(at) { return at in kind && kind[at] == "pair" }
function make_pair(at) { if (!(at in kind)) { kind[at] = "pair"; found = 1 } }
function join(one, other) { left[++joins] = one; right[joins] = other }

NR == FNR && /^define / { read_call(); f = name }
NR == FNR && / = alloca ptr,/ { kind[f, $1] = "cell" }
NR == FNR && / (load ptr,|store ptr) / { make_pair(f SUBSEP place_used()) }
NR == FNR && / call / && !/ @llvm\.memset\./ {
    read_call()
    if (name ~ /^@llvm\.memmove/) join(f SUBSEP last_word(operand[1]), f SUBSEP last_word(operand[2]))
    else for (i = 1; i <= count; i++) if (operand[i] ~ /^ptr /) join(f SUBSEP last_word(operand[i]), name SUBSEP "%a" (i - 1))
}
NR == FNR { next }
FNR == 1 {
    do {
        found = 0
        for (i = 1; i <= joins; i++)
            if (is_pair(left[i])) make_pair(right[i])
            else if (is_pair(right[i])) make_pair(left[i])
    } while (found)
}

# ---- the second reading, outside of functions

# A processor that a function names would be taken before the one asked for.
/^attributes / { gsub(/"probe-stack"="inline-asm"|"stack-probe-size"="[0-9]+"/, ""); if (/"/) refuse("a function asks for something"); next }
/^(source_filename = |!|;|$)/ { next }
/^declare void @llvm\.(memmove\.p0\.p0|memset\.p0)\.i64\(/ { next }
/^declare i32 @llvm\.cttz\.i32\(i32, i1 immarg\) / { next }
/^define / {
    read_call()
    f = name
    if ($2 == "internal" && !/ ptr @/) next
    # C finds its arguments and its answer in the same registers only for these types: numbers of 64 bits, pointers, and in the one function
    # that takes two registers of the board, numbers of 32.
    text = $0
    gsub(/ noundef| %a[0-9]+/, "", text)
    if (text !~ /^define i64 @ulavrepit_([a-z_]+\(((ptr|i64)(, )?)*|region_read\(i32, i32, ptr)\) #[0-9]+ \{$/) refuse("another type than i64 and pointers in a function for C")
    for (i = 1; i <= count; i++) if (kind_taken(f, i) != "plain") refuse("a pointer in memory of C")
    next
}
/^}$/ || /^[a-z]+(\.[0-9]+)?:/ { next }
/^[^ ]/ { refuse("not known"); next }

# ---- the second reading, a line of a function

{
    text = $0
    # several numbers at once, with the same places among one another, are an answer of one function of the module to another
    gsub(/\{ i(8|16|32|64)(, i(8|16|32|64))+ \}/, " ", text)
    # a C caller may have a null pointer to nothing at all: a function for C takes another in its place
    if (f ~ /^@ulavrepit_/) sub(/ icmp eq ptr %a[0-9]+, null$/, " icmp eq ", text)
    gsub(/@"[^"]*"|[@%!#][A-Za-z0-9._]+|[][(),=]/, " ", text)
    gsub(/ -?[0-9]+/, " ", text)
    words = split(text, word, " ")
    for (i = 1; i <= words; i++) if (!(word[i] in known)) refuse("the word " word[i] " is not known")
}
/ (icmp [a-z]+|ret) ptr / && !(f ~ /^@ulavrepit_/ && / icmp eq ptr %a[0-9]+, null$/) { refuse("a pointer is compared, or handed back") }
/ = alloca / && kind_of($1) == "pair" && !/ \[16 x i8\], align 8$/ { refuse("a pointer among other things than a length") }
/ (load ptr,|store ptr) / && kind_of(place_used()) !~ /^(cell|pair)$/ { refuse("a pointer in a place for numbers") }
/ store ptr / && kind_of(substr($3, 1, length($3) - 1)) != "plain" { refuse("a pointer to a pointer") }
/ = load ptr, / && kind_of($1) != "plain" { refuse("a pointer to a pointer") }
/ (load|store) (i[0-9]|\{)/ && kind_of(place_used()) !~ /^(plain|length)$/ { refuse("a number in a place for a pointer") }
/ = getelementptr / {
    if (kind_of(place_used()) == "pair" && / i64 8$/) kind[f, $1] = "length"
    else if (kind_of(place_used()) != "plain" || kind_of($1) != "plain") refuse("a part of a place with a pointer")
}
/ call / {
    read_call()
    # The count of the trailing zeros of a number; 'false' says that it is 32 for 0, 'true' that it may be anything.
    if (name ~ /^@llvm\.cttz/) {
        if (!/ call i32 @llvm\.cttz\.i32\(i32 %[ar][0-9]+, i1 false\)$/) refuse("trailing zeros that are not known")
        next
    }
    if (name ~ /^@llvm\./ && !/@llvm\.(memmove\.p0\.p0|memset\.p0)\.i64\(ptr %[ar][0-9]+, (ptr %[ar][0-9]+|i8 0), i64 [0-9]+, i1 false\)$/)
        refuse("size not known")
    # a slice that is not yet one: no pointer, and the length 0
    if (name ~ /^@llvm\.memset/ && kind_of(last_word(operand[1])) == "pair" && operand[2] == "i8 0" && operand[3] == "i64 16") next
    if (name ~ /^@llvm\.memmove/ && kind_of(last_word(operand[1])) == "pair" && kind_of(last_word(operand[2])) == "pair" && operand[3] == "i64 16") next
    for (i = 1; i <= count; i++)
        if (operand[i] ~ /^ptr / && kind_of(last_word(operand[i])) != kind_taken(name, i)) refuse("operand " i " is not of the kind that is taken")
}
END { exit bad }
