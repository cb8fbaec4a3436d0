# The numbers on a page of tools/day, from its text: a line for each row of the sheet, 'sheet,INPUT,' and the ten numbers; and one for each lane, 'drawn,INPUT,' with
# the greatest wait, the waits withdrawn, those open, and the dropped events, counted in what is drawn. No browser is needed.

# all: how many runs a path has; sets longest to the longest.
function all(d, parts, count, at, run) {
    count = split(d, parts, "M") - 1
    longest = 0
    for (at = 2; at <= count + 1; at++) {
        run = parts[at]
        sub(/^[0-9.]+ [0-9.]+h/, "", run)
        if (run + 0 > longest) longest = run + 0
    }
    return count
}

function between(text, before, after) {
    text = substr(text, index(text, before) + length(before))
    return substr(text, 1, index(text, after) - 1)
}

/^<tr data-input=|^<tr><th scope="row">total/ {
    label = between($0, "<th scope=\"row\"", "</th>")
    sub(/^[^>]*>/, "", label)
    row = $0
    sub(/.*<\/th>/, "", row)
    gsub(/<td[^>]*>/, ",", row)
    gsub(/<[^>]*>/, "", row)
    print "sheet," label row
}

/^<g class="lane"/ {
    input = between($0, "data-input=\"", "\"")
    order[++lanes] = input
    wait[input] = gone[input] = open[input] = drops[input] = 0
}
/^<path class="(wait|over)"/ { all(between($0, " d=\"", "\"")); if (longest > wait[input]) wait[input] = longest }
/^<path class="gone"/ { gone[input] += all(between($0, " d=\"", "\"")) }
/^<path class="open"/ { open[input] += all(between($0, " d=\"", "\"")) }
/^<path class="(drop|left)" data-input=/ { of = between($0, "data-input=\"", "\""); drops[of] += all(between($0, " d=\"", "\"")) }

END { for (at = 1; at <= lanes; at++) print "drawn," order[at] "," wait[order[at]] "," gone[order[at]] "," open[order[at]] "," drops[order[at]] }
