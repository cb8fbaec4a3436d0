# Holds the names in pages to what is there. It is given the files of the repository, one a line, then the sources, then the pages, each after a word that
# says what they are:
#
#   of=files LIST of=proof FILES.. of=code FILES.. of=aside FILES.. of=tool FILES.. of=entries FILES.. of=others LIST of=gone PAGES.. of=page PAGES..
#
# It tells of each name that is not there 'name TAB PAGE TAB LINE TAB WHY'. The last line is 'held TAB - TAB 0 TAB N', of the N names that are.
#
# A name is what stands on a page as code: a theorem or definition, a function, a type, a module, a file or folder, an edit, a word of a command line. Where a
# page says in which file or module it stands, it has to stand there. Names of others, as Rust's or Linux's, are listed in others.txt.
#
# A name of the past comes after the word 'formerly', or in the first column of a table 'Formerly | Today' of its page; it must be gone. A table 'Former
# crates | Today' of a landing's note is for all notes of landings: none of these is a crate, and those that are 'modules of' a crate are that.

BEGIN { FILE_END = "[.](md|antt|rt|rs|c|h|sh|awk|txt|bin|trace|in|out|csv|sheet|names|edit|toml|lock|css|js|html|a|png|svg|device|times|holes|new|d)$" }

FNR == 1 { page_ends(); opens() }
of == "files" { a_file($0); next }
of == "proof" { if ($1 == "use") imported(); else if ($0 !~ /^ *--/) a_declaration(); next }
of == "code" || of == "aside" { some_code($0); next }
of == "tool" { some_tool($0); next }
of == "entries" { if ($0 !~ /^#/) known[$1] = 1; next }
of == "others" { if ($0 !~ /^#/) for (i = 1; i <= NF; i++) others[$i] = FILENAME "\t" FNR; next }

# Pages. A unit is a paragraph, an item of a list, a heading or a row of a table.
/^ *```/ { unit_ends(); fenced = !fenced; next }
fenced { if (of == "page") { page = FILENAME; a_command($0, FNR); named_in_text($0) } next }
/^\|/ { unit_ends(); joined($0); unit_ends(); next }
{ table = "" }
/^#/ || NF == 0 { unit_ends(); if (NF) joined($0); unit_ends(); next }
/^ *([-*]|[0-9]+\.) / { unit_ends() }
{ joined($0) }
END { page_ends(); unused_others(); printf "held\t-\t0\t%d\n", held }

# ---- what is there

# a_file PATH: by each of its endings, with what comes after its last dot and without; and so its folders.
function a_file(path,    parts, n, last, at, end) {
    n = split(path, parts, "/")
    for (last = 1; last <= n; last++) {
        end = ""
        for (at = last; at >= 1; at--) {
            end = parts[at] (end == "" ? "" : "/" end)
            if (last < n) folder[end] = 1
            else file_at[end] = path
        }
    }
    for (end = path; end != ""; end = index(end, "/") ? substr(end, index(end, "/") + 1) : "") file_at[without_end(end)] = path
    if (path ~ /^crates\/.*\.(antt|rt)$/) { module[without_end(parts[n])] = 1; pair[parts[2], without_end(parts[n])] = 1 }
}

function without_end(name) { sub(/\.[a-z]+$/, "", name); return name }

# a_declaration: what a line of a proof or a definition declares: a name before a colon, or by itself on its line.
function a_declaration(    at, typed) {
    for (at = 1; $at ~ /^(pub|unfoldable|abbrev|record|data)$/; at++) if ($at == "record" || $at == "data") typed = 1
    if ($at !~ /^[A-Za-z_]/ || !typed && at < NF && $(at + 1) != ":") return
    declared[$at] = declared[$at] " " FILENAME
    pair[base, $at] = 1
}

# imported: names of the prover's own library, which it has looked up.
function imported(    words, n, at) {
    if ($2 ~ /^Rattle[.]/ && $2 !~ /^Rattle[.](std|core)[.]|Prelude/) return
    n = split($0, words, /[^A-Za-z0-9_-]+/)
    for (at = 1; at <= n; at++) known[words[at]] = 1
}

# without_texts LINE: of the texts in it only the names of what is read of the surroundings, as "PCH_PIC_SOURCE".
function without_texts(line,    out, text) {
    while (match(line, /"[^"]*"/)) {
        text = substr(line, RSTART, RLENGTH)
        out = out substr(line, 1, RSTART - 1) (text ~ /^"[A-Z_]+"$/ ? text : " ")
        line = substr(line, RSTART + RLENGTH)
    }
    return out line
}

# some_code LINE: its words are names, in code aside only where a page says the file, and belong to the file's module and to the type around them.
function some_code(line,    words, n, at) {
    if (line ~ /^ *(\/\/|\/?\*( |$|\*|\/))/) return
    sub(/ \/\/ .*/, "", line)
    line = without_texts(line)
    if (match(line, /^(pub )?(unsafe )?(impl|enum|struct|trait)(<[^>]*>)? /)) owner = owner_in(substr(line, RSTART + RLENGTH))
    n = split(line, words, /[^A-Za-z0-9_]+/)
    for (at = 1; at <= n; at++) {
        if (words[at] == "") continue
        if (of == "code") known[words[at]] = 1
        pair[base, words[at]] = 1
        if (owner != "") pair[owner, words[at]] = 1
    }
    if (line ~ /^pub type [A-Z]/) alias[words[3]] = words[4]
    if (line ~ /^}/) owner = ""
}

# owner_in REST: of an impl's or a type's first line, the type.
function owner_in(rest) {
    sub(/^.* for /, "", rest)
    sub(/[^A-Za-z0-9_].*/, "", rest)
    return rest
}

# some_tool LINE: the words of a command line that a tool knows, its functions, what it reads of its surroundings, and what it calls a difference.
function some_tool(line,    found) {
    if (match(line, /^[a-z_0-9]+\(\)/)) known[substr(line, 1, RLENGTH - 2)] = 1
    while (match(line, /--[a-z][a-z-]*|[A-Z]+(_[A-Z]+)+|"[a-z]+(-[a-z]+)+"/)) {
        found = substr(line, RSTART, RLENGTH)
        line = substr(line, RSTART + RLENGTH)
        gsub(/"/, "", found)
        known[found] = 1
        option[base, found] = 1
    }
}

# opens: a file begins.
function opens() {
    base = module_of(FILENAME)
    owner = table = ""
}

# module_of PATH: the file's name; of a crate's root the crate.
function module_of(path) {
    if (path ~ /^crates\/.*\/(lib|main)\.rt$/) { sub(/^crates\//, "", path); sub(/\/.*/, "", path) }
    if (path == "hosts/rust/src/lib.rs") path = "pch_pic"
    sub(/\/mod\.rs$/, "", path)
    sub(/^.*\//, "", path)
    return without_end(path)
}

# ---- what pages say

function page_ends() { unit_ends(); fenced = 0 }

function joined(line) { if (unit == "") { unit_line = FNR; page = FILENAME; unit_of = of } unit = unit (unit == "" ? "" : "\n") line }

# unit_ends: its names, each with the text before it, and then what is said of them.
function unit_ends(    rest, line) {
    if (unit == "") return
    spans = 0
    rest = unit
    line = unit_line
    while (match(rest, /`[^`]+`/)) {
        gap[++spans] = substr(rest, 1, RSTART - 1)
        span[spans] = substr(rest, RSTART + 1, RLENGTH - 2)
        rest = substr(rest, RSTART + RLENGTH)
        line += gsub(/\n */, " ", gap[spans])
        span_line[spans] = line
        line += gsub(/\n */, " ", span[spans])
    }
    gsub(/\n */, " ", rest)
    gap[spans + 1] = rest
    if (unit ~ /^\| Former(ly| crates) \| Today/) table = unit ~ /crate/ ? "crates gone" : "gone"
    else if (unit ~ /^\| File \| Where it stands/) table = "files"
    else if (unit ~ /^\| Crate \|.*Modules/) { table = "crates"; modules_at = column_of(unit, "Modules") }
    else if (unit_of == "gone") { gone_in(); if (table == "files") legend() }
    else { judge_all(); pairs(); if (table == "crates") crate_row() }
    unit = ""
}

# column_of ROW WORD: the number of the cell that begins with the word.
function column_of(row, word,    cells, n, at) {
    n = split(row, cells, "|")
    for (at = 2; at < n; at++) if (index(cells[at], " " word) == 1) return at - 1
}

# is_formerly AT: by the word before it, by the name before it in a list, or by its column.
function is_formerly(at) {
    if (table ~ /gone/) return at == 1 || (gap[at] !~ /\|/ && span_formerly[at - 1])
    return gap[at] ~ /[Ff]ormerly $/ || (at > 1 && span_formerly[at - 1] && gap[at] ~ /^(, | and |, and )$/)
}

# gone_in: the names that this unit says are gone.
function gone_in(    at) {
    for (at = 1; at <= spans; at++) {
        span_formerly[at] = is_formerly(at)
        if (!span_formerly[at]) continue
        if (table == "crates gone") a_former_crate(at)
        else if (is_there(span[at]) == "yes") tell(span_line[at], "`" span[at] "` is there still, and not only formerly")
        gone[page, span[at]] = 1
    }
}

# a_former_crate AT: its row may end with the crate of which it is a module.
function a_former_crate(at) {
    gone["crates of notes", span[at]] = 1
    if (is_crate(span[at])) tell(span_line[at], "`" span[at] "` is a crate still")
    if (gap[spans] ~ /modules? of $/) counted(there((span[spans], span[at]) in pair), span_line[at], "`" span[at] "` is no module of `" span[spans] "`")
}

# is_gone NAME: this page says that it is, or, of a crate, some note of a landing where this page is one.
function is_gone(name) { return ((page, name) in gone) || page ~ /^docs\/landings\// && (("crates of notes", name) in gone) }

function is_crate(name) { return ("crates/" name) in folder }

# legend: a row of the page's table of files, each with the folder where it stands. A page that has such a table has in it each file that it names as `File.name`.
function legend(    at, path) {
    has_legend[page] = 1
    for (at = 1; at < spans; at++) {
        listed[page, span[at]] = 1
        path = span[spans] "/" span[at] ".antt"
        counted(there(path in file_at), span_line[at], "there is no `" path "`")
    }
}

# in_legend AT
function in_legend(at,    parts) {
    if (!(page in has_legend) || span[at] !~ /^[A-Z][A-Za-z]+\.[A-Za-z]+$/ || split(span[at], parts, ".") != 2 || !(parts[1] in module)) return
    counted(there((page, parts[1]) in listed), span_line[at], "the table of files has no `" parts[1] "`")
}

function tell(line, why) { printf "name\t%s\t%d\t%s\n", page, line, why }

function counted(is, line, why) {
    if (is == "yes") held++
    else if (is == "no") tell(line, why)
    return is != ""
}

# judge_all: each name by itself; of what is more than a name, each part of it that can be nothing else.
function judge_all(    at, full) {
    for (at = 1; at <= spans; at++) {
        span_formerly[at] = is_formerly(at)
        if (table ~ /gone/ ? span_formerly[at] : is_gone(span[at]) && is_there(span[at]) != "yes") continue
        # `_read` after `pch_pic_board_reset` is the same with another ending.
        if (span[at] ~ /^_[a-z]/) { sub(/_[a-z]+$/, "", full); full = full span[at] }
        else full = span[at]
        if (gap[at] ~ /[Cc]rates? $/ && full ~ /^[a-z_]+$/ && !is_gone(full)) counted(there(is_crate(full)), span_line[at], "there is no crate `" full "`")
        else if (!counted(is_there(full), span_line[at], "there is no `" full "`")) parts_of(at)
        in_legend(at)
    }
}

# parts_of AT: of what is more than a name, a command or a formula.
function parts_of(at,    words, n, i) {
    a_command(span[at], span_line[at])
    if (span[at] ~ /^[0-9]/) return
    n = split(span[at], words, /[^A-Za-z0-9_:-]+/)
    if (words[1] ~ /^--[a-z]/) counted(is_there(words[1]), span_line[at], "there is no `" words[1] "`")
    for (i = 1; i <= n; i++) if (words[i] !~ /_$/ && words[i] ~ /^[a-z]+[A-Z]|[A-Za-z]_[A-Za-z]|^[a-z]+(-[a-z0-9]+)+$|[a-z]::[a-z]/)
        counted(is_there(words[i]), span_line[at], "there is no `" words[i] "`, in `" span[at] "`")
}

# is_there NAME: yes, no, or nothing where it does not look like a name of anything here.
function is_there(name) {
    if (!(name in others)) return in_tree(name)
    used[name] = 1
    return "yes"
}

# in_tree NAME: the same, where others' names do not count.
function in_tree(name,    parts, n, at) {
    sub(/\(\)$/, "", name)
    sub(/\/$/, "", name)
    if (name ~ /^--[a-z-]+$/) return there(name in known)
    sub(/^\.\//, "", name)
    if (name ~ /[^A-Za-z0-9_.:\/-]/ || name !~ /[A-Za-z][A-Za-z_]/ || (name ~ /^[.0-9-]|[:-]$/ && name !~ /^\.ci\//) || name ~ /NAME|EDIT/) return ""
    if (name ~ /\//) return there(name ~ /^target\// || (name in file_at) || (name in folder) || an_edit(name))
    if (name ~ /::/) {
        n = split(name, parts, "::")
        for (at = 2; at <= n; at++) if (!within(parts[at - 1], parts[at])) return "no"
        return "yes"
    }
    if (name in folder) return "yes"
    n = split(name, parts, ".")
    if (name ~ FILE_END || name in file_at) return there(name in file_at || parts[1] ~ /^[A-Z]+$/ && name !~ /[.]md$/)
    if (n == 2) return there(within(parts[1], parts[2]) || parts[1] ~ /^[a-z]+$/ && (parts[2] in known))
    if (n > 2) return ""
    return there((name in declared) || (name in known) || (name in module))
}

function within(outer, inner) { return ((outer, inner) in pair) || ((outer in alias) && ((alias[outer], inner) in pair)) }

function there(is) { return is ? "yes" : "no" }

# an_edit CRATE/EDIT
function an_edit(name,    parts) {
    return split(name, parts, "/") == 2 && ((("crates/" parts[1] "/must-fail/" parts[2] ".edit") in file_at) || (("crates/" parts[1] "/edits/" parts[2] ".edit") in file_at))
}

# a_command TEXT LINE: the words of the command line of each tool in it are known to that tool.
function a_command(text, line,    words, n, at, tool) {
    if (text !~ / --[a-z]/) return
    n = split(text, words, /[ \t`'"()\[\],;]+/)
    for (at = 1; at <= n; at++) {
        if (words[at] ~ /^((\.\/)?tools\/([a-z]+\/)?[a-z-]+|\.ci\/run|\.\/run|load_sample)$/) { tool = words[at]; sub(/^.*\//, "", tool) }
        else if (words[at] ~ /^(cargo|gcc|cc|rt|rustc|[|]+|&&)$/) tool = ""
        else if (tool != "" && words[at] ~ /^--[a-z]/) {
            sub(/=.*/, "", words[at])
            counted(there((tool, words[at]) in option), line, tool " has no word `" words[at] "`")
        }
    }
}

# named_in_text LINE: of an example of code, the library's names and the hosts', what belongs to a type, and files.
function named_in_text(line,    words, n, at) {
    n = split(line, words, /[^A-Za-z0-9_.\/-]+/)
    for (at = 1; at <= n; at++) {
        sub(/[.\/]+$/, "", words[at])
        if (words[at] ~ /^(crates|docs|tools|hosts|tests|include)\// || words[at] ~ /^(pch_pic|pic|PCH_PIC|PIC)_[A-Za-z_]+$/)
            counted(is_there(words[at]), FNR, "there is no `" words[at] "`")
    }
    while (match(line, /[A-Z][A-Za-z]*::[A-Za-z_]+/)) {
        counted(is_there(substr(line, RSTART, RLENGTH)), FNR, "there is no `" substr(line, RSTART, RLENGTH) "`")
        line = substr(line, RSTART + RLENGTH)
    }
}

# pairs: names that are said to stand in a file, a folder or a module.
function pairs(    at, back, end) {
    for (at = 2; at <= spans; at++) {
        belongs(at)
        if (span[at] ~ /\// && !an_edit(span[at]) && gap[at] ~ /^ (\(|of |in |\(in )$/) for (back = at - 1; back >= 1; back--) {
            in_file(back, span[at])
            if (gap[back] !~ /^(, | and |, and )$/) break
        }
        if (gap[at] == " (" && span[at - 1] ~ /^[A-Z][A-Za-z]+$/ && span[at - 1] in module) for (end = at; end <= spans && (end == at || gap[end] ~ /^[,;] $/); end++)
            if (span[end] in declared) counted(there(within(span[at - 1], span[end])), span_line[end], "`" span[end] "` is not in `" span[at - 1] "`")
    }
    if (spans < 2 || gap[spans] !~ /(^|[^A-Za-z])In $/ || gap[spans + 1] !~ /^\. *$/ || span[spans] !~ /\.antt$/) return
    for (at = 1; at < spans; at++) if (span[at] ~ /^[a-z0-9]+(_[a-z0-9]+)*$/ && !(span[at] in known) && gap[at + 1] !~ /^ (\(|of |in )$/) in_file(at, span[spans])
}

# belongs TO: the names before this one are said to be 'of' or 'in' it, a crate or a module of one.
function belongs(to,    back) {
    if (gap[to] !~ /^ (of|in) $/ || !is_crate(first_part(span[to]))) return
    for (back = to - 1; back >= 1; back--) {
        if (span[back] ~ /^[A-Za-z0-9_-]+$/ && !is_crate(span[back]) && is_there(span[back]) != "no")
            counted(there(in_crate(span[back], span[to])), span_line[back], "`" span[back] "` is not in `" span[to] "`")
        if (gap[back] !~ /^(, | and |, and )$/) break
    }
}

function first_part(name) { sub(/::.*/, "", name); return name }

function last_part(name) { sub(/^.*::/, "", name); return name }

# files_of NAME FILES: where it is declared. A name that is not must not become one by being asked for.
function files_of(name, files) { return name in declared ? split(declared[name], files, " ") : 0 }

# in_crate NAME PLACE: its code has it, or its proofs and definitions declare it there.
function in_crate(name, place,    files, n, i) {
    if (within(last_part(place), name)) return 1
    n = files_of(name, files)
    for (i = 1; i <= n; i++) if (index(files[i], "crates/" first_part(place) "/") == 1 && (place !~ /::/ || files[i] ~ "/" last_part(place) "[/.]")) return 1
    return 0
}

# crate_row: of a table of crates, the names in the column of modules are modules of the crate; a row without a crate goes on with the one above.
function crate_row(    at, column) {
    for (at = 1; at <= spans; at++) {
        column += gsub(/\|/, "|", gap[at])
        if (column == 1) row_crate = span[at]
        if (column == modules_at && span[at] ~ /^[A-Za-z_]+$/) counted(there((row_crate, span[at]) in pair), span_line[at], "`" span[at] "` is no module of `" row_crate "`")
    }
}

# in_file AT FILE: a name that proofs or definitions declare is declared in this file, or below this folder; but a definition that a theorem speaks of may
# stand elsewhere. A name of code is in the file's code.
function in_file(at, file,    name, path, files, n, i, defined) {
    name = span[at]
    path = file in file_at ? file_at[file] : file
    if (path ~ /[.](rt|c|h|rs)$/ && name ~ /^[A-Za-z_0-9]+$/) { counted(there(within(module_of(path), name)), span_line[at], "`" name "` is not in " file); return }
    if (is_there(name) == "no" || path !~ /^crates\// || name in module || !(name in declared) && path !~ /[.]antt$/ || name ~ /[^A-Za-z0-9_-]/) return
    n = files_of(name, files)
    for (i = 1; i <= n; i++) {
        if (index(files[i], path) == 1) { held++; return }
        if (files[i] ~ /\/specs\//) defined = 1
    }
    if (file ~ /\/specs/ || !defined) tell(span_line[at], "`" name "` is not in " file)
}

# unused_others: names of others that no page has, or that are not others'.
function unused_others(    name) {
    for (name in others) {
        if (!(name in used)) printf "name\t%s\tno page names `%s`\n", others[name], name
        else if (in_tree(name) == "yes") printf "name\t%s\t`%s` is of this repository\n", others[name], name
    }
}
