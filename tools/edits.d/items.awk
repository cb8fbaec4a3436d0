# Which item of a source its lines belong to, and by what name rt has it. `crate` is the crate's name. After begin(PATH) a call of step(LINE) for each line sets `item`: 'fn PATH'; for a
# line of an `impl` that is of none of its functions 'fn PATH::*', all of them; 'word NAME' for a constant, a type, another name of one or a macro; or nothing.

# A path from the crate's top, or with folders before that.
function begin(path) {
    module = path
    sub(/^(.*\/)?src\//, "", module)
    sub(/\.rt$/, "", module)
    gsub(/\//, "::", module)
    module = module == "lib" || module == "main" ? "" : module "::"
    item = type = behind = ""
    depth = 0
    ended = 0
}

# indent LINE: how far its first word stands in
function indent(line) { match(line, /^ */); return RLENGTH }

# typed TEXT: the words of a type, but for lifetimes and what an `impl` has for any: of `&'a [u8]` RefSliceU8.
function typed(text, any,    words, word, parts) {
    gsub(/'[a-z_]+/, "", text)
    while (text != "") {
        word = substr(text, 1, 1)
        if (match(text, /^[A-Za-z_0-9]+/)) {
            word = substr(text, 1, RLENGTH)
            if (word !~ /^(crate|super|self|dyn)$/ && !index(any, " " word " ")) words = words toupper(substr(word, 1, 1)) substr(word, 2)
        } else if (word == "&") words = words "Ref"
        else if (word == "[") words = words (text ~ /^\[[^\[\]]*;/ ? "Array" : "Slice")
        else if (word == "(" && match(text, /^\([^()]*\)/)) words = words "Tuple" split(substr(text, 2, RLENGTH - 2), parts, /,/)
        text = substr(text, length(word) + 1)
    }
    return words
}

# block_of LINE: what rt calls an `impl`: a type by its own name; with a trait the type's words, the trait, and the words of what that is for.
function block_of(line,    any, i, at, trait) {
    sub(/^impl */, "", line)
    sub(/ *(\{| where ).*/, "", line)
    any = " "
    if (line ~ /^</) {
        for (i = 1; i <= length(line); i++) {
            at += (substr(line, i, 1) == "<") - (substr(line, i, 1) == ">")
            if (!at) break
        }
        any = substr(line, 2, i - 2)
        gsub(/:[^,]*/, "", any)
        gsub(/,/, " ", any)
        any = " " any " "
        line = substr(line, i + 1)
        sub(/^ +/, "", line)
    }
    at = index(line, " for ")
    if (!at) {
        sub(/<.*/, "", line)
        sub(/.*::/, "", line)
        return line
    }
    trait = substr(line, 1, at - 1)
    line = typed(substr(line, at + 5), any)
    at = index(trait "<", "<")
    any = typed(substr(trait, at), any)
    trait = substr(trait, 1, at - 1)
    sub(/.*::/, "", trait)
    return line trait any
}

# step LINE: sets `item`, and tells whether one begins here.
function step(line,    begins) {
    if (ended) { item = ended == 1 ? "" : behind; ended = 0 }
    if (item == "") depth = 0
    if (line ~ /^impl[ <]/) {
        type = block_of(line) "::"
        item = behind = "fn " crate "::" module type "*"
        begins = 1
    } else if (match(line, /^ *(pub )?(const )?(unsafe )?(extern "C" )?fn [a-z_0-9]+/)) {
        item = substr(line, RSTART, RLENGTH)
        sub(/.*fn /, "", item)
        item = "fn " crate "::" module type item
        depth = indent(line)
        begins = 1
    } else if ((match(line, /^ *(pub )?(const|static|struct|enum) [A-Za-z_0-9]+/) || match(line, /^(pub )?type [A-Za-z_0-9]+/) || match(line, /^macro_rules! [A-Za-z_0-9]+/)) &&
        (item !~ /^fn / || item ~ /\*$/ || indent(line) <= depth)) {
        item = substr(line, RSTART, RLENGTH)
        sub(/.* /, "", item)
        item = "word " item
        begins = 1
    }
    # What stands behind is of the `impl` again, or of nothing.
    if (line ~ /^[}\]]/) { ended = 1; type = "" }
    else if (type != "" && line ~ /^    [}\]]/ || item ~ /^word / && line ~ /;$/ && begins) ended = type == "" ? 1 : 2
    return begins
}
