# awk -f count.awk recursion.txt MODULE.ll: the module with a call of entered(N) at the start of the function in the N-th line of
# recursion.txt, and of left(N) before each of its returns: see active.c. A name that the module does not have is refused.
FILENAME ~ /\.txt$/ { if (NF > 1 && $1 != "#") number["@\"" $1 "\""] = ++count; next }
/^define / { match($0, /@"[^"]*"/); name = substr($0, RSTART, RLENGTH); n = name in number ? number[name] : 0; delete number[name] }
n && /^  ret / { print "  call void @left(i32 " n ")" }
{ print }
n && /^start:/ { print "  call void @entered(i32 " n ")" }
END {
    print "declare void @entered(i32)\ndeclare void @left(i32)"
    for (name in number) { print "arm/count.awk: the module has no " name >"/dev/stderr"; bad = 1 }
    exit bad
}
