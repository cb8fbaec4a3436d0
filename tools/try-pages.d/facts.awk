# Reads pages, and tells of each what can be tried: a line for each fact, 'KIND TAB PAGE TAB LINE TAB VALUE'.
#
#   path      a file or folder of the repository that the page names in plain text; code is for names.awk
#   link      where a link leads, as it is written
#   sentence  a sentence with too many words, and how many
#   cell      how many characters a cell of a table in PROMISES.md has, where they are more than WIDEST
#   crate     the name in the first cell of a row of ARCHITECTURE.md's tables of crates, and then its modules
#
# A sentence has at most long words, in LOAD-SAMPLES.md at most short.

BEGIN { WIDEST = 120 }

FNR == 1 { flush(); fenced = 0; page = FILENAME; bound = page ~ /LOAD-SAMPLES/ ? short : long }

/^```/ { flush(); fenced = !fenced; next }
fenced { next }

{ names($0) }

/^\|/ {
    flush()
    if ($0 ~ /^\|[-:| ]*$/) next
    cells = split(substr($0, 2), cell, /\|/)
    for (i = 1; i <= cells; i++) {
        if (page ~ /PROMISES/ && length(cell[i]) - 2 > WIDEST) tell("cell", length(cell[i]) - 2)
        start = FNR
        sentences(cell[i])
    }
    if (page ~ /ARCHITECTURE/ && headed == "crates") crate_row()
    if (page ~ /ARCHITECTURE/ && $0 ~ /^\| Crate \|/) headed = "crates"
    next
}
{ headed = "" }
/^#/ || NF == 0 { flush(); next }
/^ *([-*]|[0-9]+\.) / { flush() }
{ if (text == "") start = FNR; text = text " " $0 }
END { flush() }

function tell(kind, value) { printf "%s\t%s\t%d\t%s\n", kind, page, FNR, value }

# flush: the paragraph or list item that ends here.
function flush() {
    if (text == "") return
    sentences(text)
    text = ""
}

# names LINE: the links in it, and the paths outside code.
function names(line,    rest, found) {
    rest = line
    while (match(rest, /\]\([^)]+\)/)) {
        tell("link", substr(rest, RSTART + 2, RLENGTH - 3))
        rest = substr(rest, RSTART + RLENGTH)
    }
    rest = line
    gsub(/\]\([^)]+\)|`[^`]*`/, "]", rest)
    while (match(rest, /(^|[^A-Za-z0-9_.\/-])(crates|docs|tools|hosts|tests|include)\/[A-Za-z0-9_.\/-]+/)) {
        found = substr(rest, RSTART, RLENGTH)
        rest = substr(rest, RSTART + RLENGTH)
        sub(/^[^a-z]/, "", found)
        sub(/[.\/]+$/, "", found)
        if (found !~ /NAME|EDIT/) tell("path", found)
    }
}

# sentences TEXT: those that are too long. One ends with . ! or ? before a blank, or behind a bold opening; code is one word, and so is what a link is called.
function sentences(words,    part, n, i, word, count, k, list) {
    gsub(/\]\([^)]*\)/, "]", words)
    gsub(/`[^`]*`/, "CODE", words)
    gsub(/[.!?][")*]* +/, "&\n", words)
    n = split(words, part, "\n")
    for (i = 1; i <= n; i++) {
        k = split(part[i], list, /[ \t]+/)
        count = 0
        for (word = 1; word <= k; word++) if (list[word] ~ /[A-Za-z0-9]/) count++
        if (count > bound) printf "sentence\t%s\t%d\t%d words, at most %d: %s\n", page, start, count, bound, substr(part[i], 1, 90)
    }
}

# crate_row: a row of a table of crates.
function crate_row(    name, modules) {
    name = cell[1]
    gsub(/[` ]/, "", name)
    modules = cell[3]
    gsub(/[`,]/, " ", modules)
    if (name == "") name = above
    above = name
    printf "crate\t%s\t%d\t%s %s\n", page, FNR, name, modules
}
