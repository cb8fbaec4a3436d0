# What ./run --play is to print, from what ./run --echo prints of the same lines: a number before each record, and the record in words, its input in decimal.
function decimal(text, at, value) {
    value = 0
    for (at = 1; at <= length(text); at++) value = 16 * value + index("0123456789abcdef", substr(text, at, 1)) - 1
    return value
}

function words(line, part) {
    split(line, part, " ")
    if (part[1] == "l") return (part[3] == 1 ? "raise " : "lower ") decimal(part[2])
    if (part[1] == "p") return "poll " decimal(part[2])
    if (part[1] == "r") return "read " decimal(part[2]) " " part[3]
    if (part[1] == "w") return "write " decimal(part[2]) " " part[3] " " part[4]
    return "drain"
}

/^\(end\)/ { printf "%7s  %-30s  drops %d\n", "end", "", decimal(substr($0, 35)); next }
{ printf "%7d  %-30s  %s\n", NR - 1, words(substr($0, 1, 25)), substr($0, 29) }
