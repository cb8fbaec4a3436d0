# Reads what 'rt must-fail' said of an edit, and tells in a line whether a function that the edit changes (CHANGED, their paths) is refused. `folder` has the crate's sources with
# the edit in them.

# The functions in whose proof a place stands: proofs/MODULE/../FUNCTION/FILE. Those that call one another have one proof: proofs/MODULE/+NAME/FILE or +ONE+OTHER.
function of_proof(path,    last) {
    sub(/^proofs\//, crate "/", path)
    sub(/\/[^\/]*$/, "", path)
    last = path
    sub(/.*\//, "", last)
    sub(/[^\/]*$/, "", path)
    gsub(/\//, "::", path)
    return path last
}

# The item in which a line of a source stands; an attribute is of what stands below it.
function of_source(path, at,    line, n) {
    begin(path)
    while ((getline line < (folder "/" path)) > 0) {
        n++
        step(line)
        if (n == at && line ~ /^ *#\[/) at++
        else if (n == at) break
    }
    close(folder "/" path)
    sub(/^fn /, "", item)
    return item
}

# Whether the edit changes a function; of those that call one another the proof is of all: +ONE+OTHER, or +NAME of a cycle that has a name. What stands in an `impl` and in none of
# its functions is of each of them; and what a type derives is of the type.
function is_changed(of,    n, i, names, last, front) {
    last = of
    sub(/.*::/, "", last)
    front = substr(of, 1, length(of) - length(last))
    n = split(ENVIRON["CHANGED"], names, " ")
    for (i = 1; i <= n; i++) {
        if (names[i] == of || names[i] == front "*" || last == "*" && index(names[i], front) == 1) return 1
        if (last ~ /^\+/ && index(names[i], front) == 1 && index(last "+", substr(names[i], length(front) + 1))) return 1
        if (names[i] ~ /^word:/ && (of == "word " substr(names[i], 6) || of ~ ("::" substr(names[i], 6) "(Clone|Debug|Default|Drop|Eq|Hash|Ord|PartialEq|PartialOrd)::"))) return 1
    }
    return 0
}

{
    text = $0
    sub(/^[^:]*: [^:]*: /, "", text)
    split(ENVIRON["CHANGED"], first, " ")
    if (text !~ /^refused, /) { print "FAILED: " name ": " text; exit }
    # Places in a proof are named by the code's text, as `if-i-lt-4`: an edit of a test takes such a name away, and then little is known of the promise.
    limit = text ~ /\(only because a proof file names/ ? " (only by a name that it took away)" : text ~ /\(only by a limit/ ? " (only by a limit of the prover)" : ""
    sub(/^refused, as it must be( \([^)]*\))?(: )?(note: )?(\.\/)?/, "", text)
    if (!match(text, /^(src|proofs|specs)\/[^:]*:[0-9]+:[0-9]+/)) { print "edit " name ": refused" limit; exit }
    place = substr(text, 1, RLENGTH)
    split(place, at, ":")
    of = at[1] ~ /^src\// ? of_source(at[1], at[2] + 0) : at[1] ~ /^proofs\/.*\// ? of_proof(at[1]) : ""
    if (is_changed(of)) print "edit " name ": refused in " of ", at " place limit
    else print "FAILED: " name ": it is refused elsewhere, first at " place ", and not in " first[1]
}
