# Makes the replacements of an edit in the copy of a crate that stands in `folder`, and prints what each changes, a line each, as items.awk names it. A 'file:' line
# holds for the pairs of 'old:' and 'new:' after it; an old text must be there exactly once. What is wrong is told, with status 1. With `only_tell` nothing is written.

function wrong(what) { print what; failed = 1; exit 1 }

function read_whole(path,    line, text) {
    text = ""
    while ((getline line < path) > 0) text = text line "\n"
    close(path)
    return text
}

# the item of a source text in which the character at a place stands; an attribute and a comment are of what stands below them
function item_at(text, place,    n, i, lines, at, begins) {
    n = split(text, lines, "\n")
    begin(file)
    at = 1
    for (i = 1; i <= n; i++) {
        begins = step(lines[i])
        at += length(lines[i]) + 1
        if (at > place && (begins || lines[i] !~ /^ *(#\[|\/\/)/)) return item
    }
    return item
}

/^file: / {
    file = substr($0, 7)
    if (file !~ /^src\/[a-z0-9_\/]+\.rt$/) wrong("'" file "' is no source file of the crate")
}
/^old: / { old = substr($0, 6) }
/^new:/ {
    new = substr($0, 5)
    sub(/^ /, "", new)
    text = read_whole(folder "/" file)
    place = old == "" ? 0 : index(text, old)
    if (!place) wrong("the text '" old "' is not in " file)
    rest = substr(text, place + length(old))
    if (index(rest, old)) wrong("the text '" old "' is in " file " more than once")
    item = item_at(text, place)
    if (item == "") wrong("the text '" old "' of " file " stands in no function, constant or type")
    print item
    if (only_tell) next
    printf "%s%s%s", substr(text, 1, place - 1), new, rest > (folder "/" file)
    close(folder "/" file)
}
