# The machine form of who in words: comes after form.awk. Each sentence says what follows from the table, and no more (docs/WHO.md).
# asked: the line that was asked for; clause: the words of the clause that fails.

# What the number means, said of one partition or of many. verb: " write" where the sentence has not said it yet.
function able(n, many, verb) {
    if (n == 5) return "can" verb " now"
    if (n == 4) return "can" verb " when " (many ? "they are" : "it is") " current"
    if (n == 3) return "can" verb ", if " (many ? "they load" : "it loads") " it"
    if (n == 2) return "can't" verb ": " (many ? "their entries take" : "its entry takes") " more than 8 regions of the board, and can't be loaded"
    if (n == 1) return "can't" verb ": no write right"
    return "can't" verb ": " (many ? "their entries are" : "its entry is") " closed"
}

# "the root", "the root and the store", "the root, the store and the reader"
function joined(list, n,    i, text) {
    text = list[1]
    for (i = 2; i <= n; i++) text = text (i == n ? " and " : ", ") list[i]
    return text
}

function the(p) { return p in name ? "the " name[p] : "partition " p }

# Who of the holders can write, in one sentence: those first who can do most.
function sentence(i,    n, j, count, list, text) {
    for (n = 5; n >= 0; n--) {
        count = 0
        for (j = 1; j <= holders[i]; j++)
            if (can[holder[i, j]] == n) list[++count] = the(partition_of(holder[i, j]))
        if (count > 0) text = text (text == "" ? "" : "; ") joined(list, count) " " able(n, count > 1, text == "" ? " write" : "")
    }
    return toupper(substr(text, 1, 1)) substr(text, 2) "."
}

# Why an entry is closed: the areas that it shares a line with, and whose they are; of many the first three.
function closed_by(k,    i, a, text, shown) {
    shown = shuts[k] > 4 ? 3 : shuts[k]
    for (i = 1; i <= shown; i++) {
        a = shut[k, i]
        text = text (i == 1 ? "" : ", ") lo[a] " to " hi[a] " is " area_name(a)
    }
    return "closed: " text (shown < shuts[k] ? ", and so on: " shuts[k] " areas" : "")
}

function state(k,    text) {
    if (!open[k]) return (given[k] ? "given to " called(given[k]) ", " : "") closed_by(k)
    text = "open"
    if (given[k]) text = text ", given to " called(given[k])
    if (whole[k]) text = text ", lent to it whole"
    if (k in region) text = text ", in region " region[k] (partition_of(k) == current ? " of the current partition" : "")
    return text
}

function name_list(i,    j, text) {
    for (j = 1; j <= holders[i]; j++) text = text (j == 1 ? "" : ", ") called(partition_of(holder[i, j]))
    return text
}

function print_line(    j, k, p, wide, a, shown) {
    printf "line %s, %s\n", asked, addresses(asked, asked + 1)
    if (ats == 0) {
        printf "No partition holds line %s: the memory is lines %s to %s, %s.\n", asked, base, end, addresses(base, end)
        return
    }
    for (j = 1; j <= holders[1]; j++) {
        p = partition_of(holder[1, j])
        shown[j] = p in name ? name[p] : "-"
        if (length(shown[j]) > wide) wide = length(shown[j])
    }
    for (j = 1; j <= holders[1]; j++) {
        k = holder[1, j]
        printf "%2d %-" wide "s  slot %2d  lines %s to %s, %s  %s  %s\n", partition_of(k), shown[j], slot_of(k), start[k], stop[k], addresses(start[k], stop[k]), rights[k], state(k)
    }
    a = area_at(asked)
    if (a != "") printf "Line %s is the kernel's: it lies in %s. ", asked, area_name(a)
    printf "%d %s line %s: %s. %s\n", holders[1], holders[1] == 1 ? "partition holds" : "partitions hold", asked, name_list(1), sentence(1)
}

function print_map(    r, i, last, a) {
    printf "lines %s to %s, %s; current is %s\n", base, end, addresses(base, end), called(current)
    for (r = 1; r <= runs; r++) {
        printf "%s to %s, %s: %s\n", run_start[r], run_end[r], addresses(run_start[r], run_end[r]), name_list(first_at[r])
        last = r == runs ? ats : first_at[r + 1] - 1
        for (i = first_at[r]; i <= last; i++) {
            a = area_at(at[i])
            printf "    %s to %s: %s\n", at[i], at_end(i), a == "" ? sentence(i) : "The kernel's: " area_name(a) "."
        }
    }
}

$1 == "fails" {
    printf "The dump is not sound: clause S%s fails at partition %s%s.\n%s\n", $2, $3, $3 in name ? ", " name[$3] : "", clause
    printf "Nothing can be told from it. make check IMAGE=.. shows the words of that partition.\n"
    unsound = 1
}
END {
    if (unsound) exit
    if (runs) print_map()
    else print_line()
}
