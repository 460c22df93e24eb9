# awk -f stack.awk recursion.txt FILE.su FILE.s: the deepest stack of each function for C, in bytes: the frames that the compiler
# reports, summed along the calls in its assembly. What the memory functions of the C library need comes on top.
# A circle of calls counts as often as recursion.txt says of the function by which it is entered. Another circle is refused,
# and so is a call that is not by name.
function refuse(why) { print "arm/stack.awk: " why >"/dev/stderr"; bad = 1; exit 1 }
function larger(a, b) { return a > b ? a : b }
BEGIN { FS = "\t" }

FILENAME ~ /\.txt$/ { if (split($0, word, " ") > 1 && word[1] != "#") most_active[word[1]] = word[2]; next }
FILENAME ~ /\.su$/ {
    name = $1
    sub(/^[^:]*:/, "", name)
    if ($3 != "static") refuse(name ": its frame is not of one size")
    frame[name] = $2
    next
}

# ---- the calls in the assembly; a jump to a function's name is one too

/\.type\t/ { name = $3; sub(/,.*/, "", name); gsub(/"/, "", name); next }
$2 ~ /^blx/ || ($2 ~ /^bx/ && $3 != "lr") { refuse(name ": a call that is not by name: " $0) }
$2 ~ /^b[a-z]*(\.w)?$/ && $2 !~ /^(bic|bfi|bfc|bkpt)/ && $3 !~ /^(\.L|lr$)/ {
    callee = $3
    gsub(/"| *@.*/, "", callee)
    if (callee !~ /^__aeabi_mem(clr|cpy|move|set)[48]?$/) calls[name] = calls[name] "\t" callee
}

# ---- the sum

# The frames on the way lie above this one: their sum stands in above[f] for each f on it. A call back to one of them closes
# a circle; round[g] is the largest sum of frames on a way from g back to it. What was found inside of a circle is not kept.
function depth(f, over,    list, count, i, g, most) {
    if (f in known) return known[f]
    if (!(f in frame)) refuse(f ": no frame is known")
    above[f] = over
    count = split(calls[f], list, "\t")
    for (i = 2; i <= count; i++) {
        g = list[i]
        if (!(g in above)) most = larger(most, depth(g, over + frame[f]))
        else if (g in most_active) { round[g] = larger(round[g], over + frame[f] - above[g]); if (g != f) open[g] = 1 }
        else refuse(g ": calls itself, and arm/recursion.txt does not say how often")
    }
    delete above[f]
    delete open[f]
    most += frame[f] + (f in round ? (most_active[f] - 1) * round[f] : 0)
    for (g in open) return most
    return known[f] = most
}
END {
    if (bad) exit 1
    for (f in frame) if (f ~ /^ulavrepit_/) print f, depth(f, 0) | "sort"
}
