# Reads the machine form of who (docs/WHO.md), and a file of names. What was read, for the program that comes with this one:
#   base, end, current            the memory, and the partition that is current
#   count, number[i], parent[p]   the partitions
#   start[k], stop[k], rights[k], open[k], given[k], whole[k], pieces[k]   an entry; k is its partition SUBSEP its slot
#   can[k]                        whether its partition can write into it, 0 to 5
#   region[k]                     the region that has it loaded, if any
#   shuts[k], shut[k, i]          the areas that it shares a line with: partition SUBSEP j, where 0 is the header, j is structure j - 1
#   areas, area[i], lo[a], hi[a]  the areas
#   runs, run_start[i], run_end[i], first_at[i]
#   ats, at[i], holders[i], holder[i, j]   lines from which on other entries hold, and the entries, the root's first
BEGIN {
    base = end = 0
    while (names != "" && (getline text < names) > 0) {
        p = text + 0
        sub(/^[0-9]+ /, "", text)
        name[p] = text
    }
}
$1 == "memory" { base = $2; end = $3; current = $4 }
$1 == "partition" { number[++count] = $2; parent[$2] = $3 }
$1 == "area" { area[++areas] = $2 SUBSEP $3; lo[$2, $3] = $4; hi[$2, $3] = $5 }
$1 == "entry" {
    k = $2 SUBSEP $3
    entry[++entries] = k
    start[k] = $4; stop[k] = $5; open[k] = $9; given[k] = $10; whole[k] = $11; pieces[k] = $12
    rights[k] = ($6 ? "r" : "-") ($7 ? "w" : "-") ($8 ? "x" : "-")
}
$1 == "can" { can[$2, $3] = $4 }
$1 == "shut" { k = $2 SUBSEP $3; shut[k, ++shuts[k]] = $4 SUBSEP $5 }
$1 == "region" { region[$2, $3] = $4 }
$1 == "run" { run_start[++runs] = $2; run_end[runs] = $3; first_at[runs] = ats + 1 }
$1 == "at" { at[++ats] = $2 }
$1 == "holder" { holder[ats, ++holders[ats]] = $2 SUBSEP $3 }

function partition_of(k) { return substr(k, 1, index(k, SUBSEP) - 1) }
function slot_of(k) { return substr(k, index(k, SUBSEP) + 1) }

# A partition by its name, or by its number.
function called(p) { return p in name ? name[p] : "partition " p }

# An area in words.
function area_name(a,    j) {
    j = slot_of(a)
    return (j == 0 ? "the header" : "structure " j - 1) " of " called(partition_of(a))
}

# The area that a line is in; nothing if it is in none.
function area_at(line,    i) {
    for (i = 1; i <= areas; i++)
        if (lo[area[i]] <= line && line < hi[area[i]]) return area[i]
    return ""
}

# The line that the entries of i hold up to: of those that hold, the last one's ends first.
function at_end(i) { return stop[holder[i, holders[i]]] }

# The address of a line, which has 32 bytes.
function address(line,    text, digit) {
    line *= 32
    do {
        digit = line % 16
        text = substr("0123456789abcdef", digit + 1, 1) text
        line = (line - digit) / 16
    } while (line > 0)
    return "0x" text
}
function addresses(from, to) { return address(from) " to " address(to) }
