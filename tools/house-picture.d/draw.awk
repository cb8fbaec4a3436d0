# Draws crates.txt as an SVG. The first group stands on the left, all others on the right, the lowest at the bottom. An arrow goes from a crate to one that it
# rests on; those that follow from others are left out. Between the two sides there are no arrows: a small line in the box names what it rests on there.
#
# A group is a band of rows: a crate stands above all of its own group that it rests on. An arrow over several rows gets a bend in each, which takes part in
# the order of the row like a box, so that no arrow goes behind a box.

BEGIN { BOX = 108; HIGH = 30; GAP = 16; BEND = 12; STEP = 66; WIDEST = 5; LABEL = 30; MARGIN = 18 }

/^#/ { heading = substr($0, 3); next }
NF == 0 { next }
{
    # `name staticlib:` is a crate for C.
    sub(/ +staticlib:/, ":")
    name = $1
    sub(/:$/, "", name)
    if (heading != group_name[groups]) group_name[++groups] = heading
    crate[++crates] = name
    group[name] = groups
    side[name] = groups == 1 ? 1 : 2
    for (i = 2; i <= NF; i++) rests[name, $i] = 1
}

END {
    for (i = 1; i <= crates; i++) known[crate[i]] = 1
    reduce()
    levels()
    bends()
    for (s = 1; s <= 2; s++) { for (turn = 1; turn <= 16; turn++) sweep(s, turn % 2); place(s) }
    draw()
}

# reduce: arrow[a, b] where a rests on b, and on nothing that rests on b.
function reduce(    a, b, c, x, y, z, more, needed) {
    for (a = 1; a <= crates; a++) for (b = 1; b <= crates; b++) if ((crate[a], crate[b]) in rests) reach[crate[a], crate[b]] = 1
    do {
        more = 0
        for (a = 1; a <= crates; a++) for (b = 1; b <= crates; b++) {
            x = crate[a]; y = crate[b]
            if (!((x, y) in reach)) continue
            for (c = 1; c <= crates; c++) { z = crate[c]; if ((y, z) in reach && !((x, z) in reach)) { reach[x, z] = 1; more = 1 } }
        }
    } while (more)
    for (a = 1; a <= crates; a++) for (b = 1; b <= crates; b++) {
        x = crate[a]; y = crate[b]
        if (!((x, y) in rests)) continue
        needed = 1
        for (c = 1; c <= crates; c++) { z = crate[c]; if (z != y && (x, z) in rests && (z, y) in reach) needed = 0 }
        if (needed && side[x] == side[y]) { arrow[x, y] = 1; from[++arrows] = x; to[arrows] = y }
        else if (needed) beside[x] = beside[x] (beside[x] == "" ? "" : ", ") y
    }
}

# levels: the row of each crate within its side. A group begins above the one before it; a row of more than WIDEST goes on in the next.
function levels(    g, s, a, b, l, top, rows, n, x, moved) {
    for (g = 1; g <= groups; g++) {
        s = g == 1 ? 1 : 2
        if (g <= 2) top = 0
        group_row[g] = top
        for (a = 1; a <= crates; a++) if (group[crate[a]] == g) level[crate[a]] = 0
        do {
            moved = 0
            for (a = 1; a <= crates; a++) for (b = 1; b <= crates; b++) {
                x = crate[a]
                if (group[x] == g && group[crate[b]] == g && (x, crate[b]) in rests && level[x] <= level[crate[b]]) { level[x] = level[crate[b]] + 1; moved = 1 }
            }
        } while (moved)
        rows = 0
        for (l = 0; ; l++) {
            n = 0
            for (a = 1; a <= crates; a++) if (group[crate[a]] == g && level[crate[a]] == l) {
                if (n && n % WIDEST == 0) rows++
                n++
                row[crate[a]] = top + rows
            }
            if (n == 0) break
            rows++
        }
        top += rows
        group_rows[g] = rows
        side_rows[s] = top
    }
    for (a = 1; a <= crates; a++) enter(crate[a], side[crate[a]], row[crate[a]])
}

# enter NODE SIDE ROW: behind the others of its row.
function enter(node, s, r) { at[s, r, ++many[s, r]] = node; order[node] = many[s, r] }

# bends: an arrow over several rows, as a chain of short ones.
function bends(    i, r, before, node) {
    for (i = 1; i <= arrows; i++) {
        before = from[i]
        for (r = row[from[i]] - 1; r > row[to[i]]; r--) {
            node = "bend " i " " r
            side[node] = side[from[i]]
            enter(node, side[node], r)
            link(before, node)
            before = node
        }
        link(before, to[i])
    }
}
function link(high, low) { links++; upper[links] = high; lower[links] = low; heads[links] = low in known }

# sweep SIDE UP: each row is ordered by the mean place of what its members are linked with in the row before.
function sweep(s, up,    r, k, i, j, node, sum, n, other, key, held, count) {
    for (k = 0; k < side_rows[s]; k++) {
        r = up ? k : side_rows[s] - 1 - k
        count = many[s, r]
        for (i = 1; i <= count; i++) {
            node = at[s, r, i]
            sum = n = 0
            for (j = 1; j <= links; j++) {
                other = ""
                if (up && upper[j] == node) other = lower[j]
                if (!up && lower[j] == node) other = upper[j]
                if (other != "") { sum += order[other] / (many[s, rowof(other)] + 1); n++ }
            }
            key[node] = n ? sum / n : order[node] / (count + 1)
        }
        for (i = 2; i <= count; i++) {
            held = at[s, r, i]
            for (j = i - 1; j >= 1 && key[at[s, r, j]] > key[held]; j--) at[s, r, j + 1] = at[s, r, j]
            at[s, r, j + 1] = held
        }
        for (i = 1; i <= count; i++) order[at[s, r, i]] = i
    }
}
function rowof(node,    p) { if (node in known) return row[node]; split(node, p, " "); return p[3] }
function wide(node) { return node in known ? BOX : BEND }

# place SIDE: rows side by side as they are ordered, and then each node drawn towards what it is linked with, as far as its neighbours let it.
function place(s,    r, i, node, edge, turn, j, sum, n, want, low, high, left, right) {
    for (r = 0; r < side_rows[s]; r++) {
        edge = 0
        for (i = 1; i <= many[s, r]; i++) { node = at[s, r, i]; x_of[node] = edge + wide(node) / 2; edge += wide(node) + GAP }
        for (i = 1; i <= many[s, r]; i++) x_of[at[s, r, i]] -= (edge - GAP) / 2
    }
    for (turn = 1; turn <= 60; turn++) for (r = 0; r < side_rows[s]; r++) for (i = 1; i <= many[s, r]; i++) {
        node = at[s, r, i]
        sum = n = 0
        for (j = 1; j <= links; j++) {
            if (upper[j] == node) { sum += x_of[lower[j]]; n++ }
            if (lower[j] == node) { sum += x_of[upper[j]]; n++ }
        }
        if (!n) continue
        want = sum / n
        if (i > 1) { left = at[s, r, i - 1]; low = x_of[left] + (wide(left) + wide(node)) / 2 + GAP; if (want < low) want = low }
        if (i < many[s, r]) { right = at[s, r, i + 1]; high = x_of[right] - (wide(right) + wide(node)) / 2 - GAP; if (want > high) want = high }
        x_of[node] = want
    }
    least[s] = 1e9; most[s] = -1e9
    for (r = 0; r < side_rows[s]; r++) for (i = 1; i <= many[s, r]; i++) {
        node = at[s, r, i]
        if (x_of[node] - wide(node) / 2 < least[s]) least[s] = x_of[node] - wide(node) / 2
        if (x_of[node] + wide(node) / 2 > most[s]) most[s] = x_of[node] + wide(node) / 2
    }
}

# below SIDE ROW: how many groups begin in that row or below, above the first: each band has room for its name.
function below(s, r,    g, n) { for (g = 3; g <= groups; g++) if (s == 2 && group_row[g] <= r) n++; return n + 0 }
function across(node) { return origin[side[node]] + x_of[node] - least[side[node]] }
function down(s, r) { return bottom - r * STEP - below(s, r) * LABEL }

# titled HEADING: its name in bold, and what it says of it.
function titled(heading,    colon) {
    sub(/\.$/, "", heading)
    colon = index(heading, ":")
    if (!colon) return "<tspan font-weight=\"bold\">" heading "</tspan>"
    return "<tspan font-weight=\"bold\">" substr(heading, 1, colon - 1) "</tspan>" substr(heading, colon)
}

# draw: the two sides beside each other, on one ground line.
function draw(    s, g, tall, total) {
    for (s = 1; s <= 2; s++) { total = side_rows[s] * STEP + below(s, 99) * LABEL + LABEL; if (total > tall) tall = total }
    origin[1] = 2 * MARGIN
    origin[2] = origin[1] + most[1] - least[1] + 4 * MARGIN
    bottom = tall + MARGIN - 24
    printf "<svg xmlns=\"http://www.w3.org/2000/svg\" viewBox=\"0 0 %d %d\" font-family=\"Helvetica, Arial, sans-serif\">\n", origin[2] + most[2] - least[2] + 2 * MARGIN, tall + 2 * MARGIN + 14
    print "<title>The crates, and what each rests on</title>"
    print "<!-- Made by tools/house-picture from crates.txt. -->"
    print "<defs><marker id=\"head\" viewBox=\"0 0 8 8\" refX=\"7\" refY=\"4\" markerWidth=\"7\" markerHeight=\"7\" orient=\"auto\"><path d=\"M0 0 8 4 0 8z\" fill=\"#667\"/></marker></defs>"
    print "<rect width=\"100%\" height=\"100%\" fill=\"#fff\"/>"
    bands()
    curves()
    for (g = 1; g <= groups; g++) print label[g]
    boxes()
    printf "<text x=\"%d\" y=\"%d\" font-size=\"11\" fill=\"#334\">An arrow: rests on. Left out is what follows from other arrows. 'and ..' names what a crate rests on across the two sides.</text>\n", origin[1] - MARGIN, tall + MARGIN + 22
    print "</svg>"
}

# bands: the ground of each group; its name is kept for later, so that it stands over the arrows.
function bands(    g, s, y1, y2, tint) {
    split("#eef3fb #f3f0e6 #fbeee6 #eaf5ec #f5ecf6 #eeeeee", tint, " ")
    for (g = 1; g <= groups; g++) {
        s = g == 1 ? 1 : 2
        y1 = down(s, group_row[g] + group_rows[g] - 1) - HIGH / 2 - LABEL
        y2 = down(s, group_row[g]) + HIGH / 2 + 10
        printf "<rect x=\"%d\" y=\"%d\" width=\"%d\" height=\"%d\" rx=\"8\" fill=\"%s\"/>\n", origin[s] - MARGIN, y1, most[s] - least[s] + 2 * MARGIN, y2 - y1, tint[g]
        label[g] = sprintf("<text x=\"%d\" y=\"%d\" font-size=\"12\" fill=\"#334\" stroke=\"%s\" stroke-width=\"5\" paint-order=\"stroke\">%s</text>", origin[s] - MARGIN + 8, y1 + 14, tint[g], titled(group_name[g]))
    }
}

# curves: each link from the lower edge of what rests to the upper edge of what it rests on, or from bend to bend.
function curves(    i, a, b, x1, y1, x2, y2, mid) {
    for (i = 1; i <= links; i++) {
        a = upper[i]; b = lower[i]
        x1 = across(a); y1 = down(side[a], rowof(a)) + (a in known ? HIGH / 2 : 0)
        x2 = across(b); y2 = down(side[b], rowof(b)) - (b in known ? HIGH / 2 : 0)
        mid = (y1 + y2) / 2
        printf "<path d=\"M%.1f %.1fC%.1f %.1f %.1f %.1f %.1f %.1f\" fill=\"none\" stroke=\"#667\"%s/>\n", x1, y1, x1, mid, x2, mid, x2, y2, heads[i] ? " marker-end=\"url(#head)\"" : ""
    }
}

function boxes(    i, a, x1, y1) {
    for (i = 1; i <= crates; i++) {
        a = crate[i]
        x1 = across(a); y1 = down(side[a], row[a])
        printf "<rect x=\"%.1f\" y=\"%.1f\" width=\"%d\" height=\"%d\" rx=\"4\" fill=\"#fff\" stroke=\"#445\"/>\n", x1 - BOX / 2, y1 - HIGH / 2, BOX, HIGH
        printf "<text x=\"%.1f\" y=\"%.1f\" font-size=\"12\" text-anchor=\"middle\">%s</text>\n", x1, y1 + (beside[a] == "" ? 4 : -1), a
        if (beside[a] != "") printf "<text x=\"%.1f\" y=\"%.1f\" font-size=\"9\" text-anchor=\"middle\" fill=\"#556\">and %s</text>\n", x1, y1 + 11, beside[a]
    }
}
