# The machine form of who, asked for every line, as a picture: comes after form.awk. title: what stands above it.
# Memory goes down the page, a column a partition in tree order, a cell an entry. What a cell says is taken from the form as it stands.

BEGIN { LETTER = 6.65; ROW = 20; PAGE = 420; GAP = 22; PAD = 7; TOP = 92; GUTTER = 158 }

function escaped(text) {
    gsub(/&/, "\\&amp;", text); gsub(/</, "\\&lt;", text); gsub(/>/, "\\&gt;", text)
    return text
}
function wide(text) { return length(text) * LETTER }

# ---- what stands where

# The columns: a partition, then its children, each with its own.
function place(p,    i) {
    column[++columns] = p
    for (i = 1; i <= count; i++)
        if (number[i] != 0 && parent[number[i]] == p) place(number[i])
}

# What a cell says: the slot, the rights, and what else there is to know.
function label(k,    text) {
    text = slot_of(k) " " rights[k]
    if (whole[k]) text = text " lent whole"
    if (open[k]) return text
    return text " " (given[k] ? shuts[k] (shuts[k] == 1 ? " area" : " areas") " in it" : served(shut[k, 1]))
}
function served(a,    q) {
    q = partition_of(a)
    return (slot_of(a) == 0 ? "header" : "structure " slot_of(a) - 1) " of " (q in name ? name[q] : q)
}
function tag(k) { return k in region ? "region " region[k] : "" }

# How far down the page a row begins. A row is as high as its lines are many, but never thinner than a line of text.
function lay_rows(    i, y) {
    scale = PAGE / (end - base)
    y = TOP
    for (i = 1; i <= ats; i++) {
        row_y[at[i]] = y
        y += (at_end(i) - at[i]) * scale < ROW ? ROW : (at_end(i) - at[i]) * scale
    }
    row_y[end] = bottom = y
}

# How far to the right a column begins, and how wide it is: as its longest text.
function lay_columns(    i, j, k, p, x, w) {
    x = GUTTER
    for (i = 1; i <= columns; i++) {
        p = column[i]
        w = wide(head(p)) > wide(below_head(p)) ? wide(head(p)) : wide(below_head(p))
        for (j = 1; j <= entries; j++) {
            k = entry[j]
            if (partition_of(k) == p && needed(k) > w) w = needed(k)
        }
        column_x[p] = x
        column_w[p] = w + 2 * PAD
        x += w + 2 * PAD + GAP
    }
    right = x - GAP
}
function needed(k) { return wide(label(k)) + (tag(k) == "" ? 0 : wide(tag(k)) + 3 * PAD) }
function head(p) { return p (p in name ? " " name[p] : "") }
function below_head(p) { return (p == 0 ? "holds all lines" : "child of " called(parent[p])) (p == current ? ", current" : "") }

# ---- drawing

function text_at(x, y, kind, words) { printf "<text x=\"%.1f\" y=\"%.1f\" class=\"%s\">%s</text>\n", x, y, kind, escaped(words) }
function box(x, y, w, h, kind) { printf "<rect x=\"%.1f\" y=\"%.1f\" width=\"%.1f\" height=\"%.1f\" class=\"%s\"/>\n", x, y, w, h, kind }

# Black letters on white, so that they can be read on hatching.
function plate(x, y, words) {
    box(x - 3, y - 10.5, wide(words) + 6, 13.5, "plate")
    text_at(x, y, "cell", words)
}

function draw_head(i,    p) {
    p = column[i]
    box(column_x[p], TOP - 42, column_w[p], 34, p == current ? "now" : "head")
    text_at(column_x[p] + PAD, TOP - 28, p == current ? "bold light" : "bold", head(p))
    text_at(column_x[p] + PAD, TOP - 14, p == current ? "light" : "", below_head(p))
    printf "<path d=\"M%.1f %.1fV%.1f\" class=\"guide\"/>\n", column_x[p] + column_w[p] / 2, TOP - 8, bottom
}

# A row's first line and its address, and a line across the page, thicker where other partitions hold from there on.
function draw_row(line, y, thick) {
    printf "<path d=\"M%.1f %.1fH%.1f\" class=\"%s\"/>\n", 12, y, right, thick ? "edge" : "thin"
    text_at(12, y + 14, "", sprintf("%9d %10s", line, address(line)))
}
function draw_rows(    r, i, starts) {
    for (r = 1; r <= runs; r++) starts[run_start[r]] = 1
    for (i = 1; i <= ats; i++) draw_row(at[i], row_y[at[i]], at[i] in starts)
    draw_row(end, bottom, 1)
}

function draw_cell(k,    p, x, y, h) {
    p = partition_of(k)
    x = column_x[p]
    y = row_y[start[k]]
    h = row_y[stop[k]] - y
    printf "<g class=\"entry\" data-entry=\"%s/%s\">\n", p, slot_of(k)
    box(x, y + 1, column_w[p], h - 2, open[k] ? "open" : "closed")
    plate(x + PAD, y + 14, label(k))
    if (tag(k) != "") draw_tag(x + column_w[p] - wide(tag(k)) - 8 - 4, y + 14, tag(k))
    print "</g>"
}
function draw_tag(x, y, words) {
    box(x, y - 11, wide(words) + 8, 14.5, "tag")
    text_at(x + 4, y, "light", words)
}

# From an entry to whom it is given: nothing lies between, since of the columns there none holds these lines.
function draw_link(k,    p, y) {
    p = partition_of(k)
    y = row_y[start[k]] + 10
    printf "<path d=\"M%.1f %.1fH%.1f\" class=\"link\" marker-end=\"url(#to)\"/>\n", column_x[p] + column_w[p], y, column_x[given[k]] - 1
}

# ---- the legend

function legend_line(y, words) { text_at(12 + 92, y + 13, "", words) }
function legend(y,    few) {
    few = ROW / scale
    text_at(12, y + 8, "bold", "How to read it")
    y += 16
    box(12, y, 80, 18, "open"); plate(19, y + 13, "3 rw-"); legend_line(y, "an entry: its slot, and what it allows: r read, w write, x execute")
    y += 23
    box(12, y, 80, 18, "closed"); plate(19, y + 13, "5 rwx"); legend_line(y, "closed, so that nobody can load it: it serves the kernel as the area that is named, or there are areas in it")
    y += 23
    printf "<path d=\"M12 %.1fH90\" class=\"link\" marker-end=\"url(#to)\"/>\n", y + 9
    legend_line(y, "given to a child, which holds these lines too; the giver still does")
    y += 23
    draw_tag(12, y + 13, "region 0"); legend_line(y, "loaded in this region; it can be used when its partition is current")
    y += 23
    box(12, y, 80, 18, "now"); text_at(19, y + 13, "light", "1 store"); legend_line(y, "the current partition: its loaded regions are in force now")
    y += 23
    text_at(12, y + 13, "", "Areas are kernel memory: the header of a partition, or a structure, which has eight of its slots.")
    text_at(12, y + 29, "", "A row begins at the line and the address on its left; a line has 32 bytes. The holders change where the line across the page is thick.")
    text_at(12, y + 45, "", sprintf("Heights are to scale, except that a row of fewer than %d lines is drawn as high as its text.", few == int(few) ? few : int(few) + 1))
    return y + 45
}

END {
    if (!runs) exit 1
    place(0)
    lay_rows()
    lay_columns()
    if (right < 915) page = 915
    else page = right
    printf "<svg xmlns=\"http://www.w3.org/2000/svg\" width=\"%d\" height=\"%d\" viewBox=\"0 0 %d %d\" role=\"img\" font-family=\"DejaVu Sans Mono, Menlo, Consolas, monospace\" font-size=\"11\">\n", page + 12, bottom + 222, page + 12, bottom + 222
    printf "<title>%s</title>\n", escaped(title)
    print "<style>"
    print "rect { fill: none; stroke: none } .page, .plate { fill: #fff } .open { fill: #fff; stroke: #000 } .closed { fill: url(#hatch); stroke: #000 }"
    print ".head { fill: #eee; stroke: #000 } .now, .tag { fill: #000 } .light { fill: #fff } .bold { font-weight: bold }"
    print "path { fill: none; stroke: #000 } .thin { stroke: #bbb; stroke-width: .6 } .edge { stroke: #555; stroke-width: 1.4 } .guide { stroke: #ccc; stroke-dasharray: 1 4 } .link { stroke-width: 1.6 }"
    print "text { white-space: pre }"
    print "</style>"
    print "<defs><pattern id=\"hatch\" width=\"7\" height=\"7\" patternUnits=\"userSpaceOnUse\" patternTransform=\"rotate(45)\"><rect width=\"7\" height=\"7\" style=\"fill:#fff\"/><rect width=\"1.6\" height=\"7\" style=\"fill:#666\"/></pattern>"
    print "<marker id=\"to\" markerWidth=\"9\" markerHeight=\"8\" refX=\"8\" refY=\"4\" orient=\"auto\" markerUnits=\"userSpaceOnUse\"><path d=\"M0 0L9 4L0 8z\" style=\"fill:#000;stroke:none\"/></marker></defs>"
    printf "<rect class=\"page\" width=\"%d\" height=\"%d\"/>\n", page + 12, bottom + 222
    printf "<text x=\"12\" y=\"20\" font-size=\"14\" class=\"bold\">%s</text>\n", escaped(title)
    text_at(12, 36, "", sprintf("lines %s to %s, %s", base, end, addresses(base, end)))
    text_at(12, TOP - 14, "bold", sprintf("%9s %10s", "line", "address"))
    for (i = 1; i <= columns; i++) draw_head(i)
    draw_rows()
    for (i = 1; i <= entries; i++) if (given[entry[i]]) draw_link(entry[i])
    for (i = 1; i <= entries; i++) draw_cell(entry[i])
    legend(bottom + 34)
    print "</svg>"
}
