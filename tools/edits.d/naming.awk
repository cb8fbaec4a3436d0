# Of the source files of a crate prints each item that names `word`, as items.awk names it, but for what is called so itself.
FNR == 1 { begin(FILENAME) }
{
    step($0)
    line = $0
    sub(/\/\/.*/, "", line)
    if (item != "" && item != "word " word && match(line, "(^|[^A-Za-z0-9_])" word "([^A-Za-z0-9_]|$)") && !seen[item]++) print item
}
