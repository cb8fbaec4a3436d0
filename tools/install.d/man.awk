# Makes a man page of include/pch_pic.h: what it says first, and then each call with what is said of it. version is the header's.

function escaped(line) {
    gsub(/\\/, "\\e", line)
    gsub(/-/, "\\-", line)
    if (line ~ /^[.']/) line = "\\&" line
    return line
}

# text LINE: a line of a comment, without its stars. An item of a list is filled, another indented line stands as it is, and an empty one ends a paragraph.
function text(line) {
    if (line ~ /^    - /) {
        ended()
        print ".IP \\(bu 4"
        line = substr(line, 7)
        item = 1
    } else if (item && line ~ /^      [^ ]/) {
        line = substr(line, 7)
    } else if (item) {
        item = 0
        if (line != "") print ".PP"
    }
    if (line ~ /^    / && !kept) { print ".EX"; kept = 1 }
    if (line !~ /^    / && kept) { print ".EE"; kept = 0 }
    if (line == "") print ".PP"
    else print escaped(line)
}
function ended() { if (kept) print ".EE"; kept = 0 }

# A section of the first comment begins with its name in capitals.
function first(line,    name) {
    if (match(line, /^[A-Z][A-Z' ]+\. /)) {
        ended()
        name = substr(line, 1, RLENGTH - 2)
        print ".SS " name
        line = substr(line, RLENGTH + 1)
    }
    text(line)
}

BEGIN {
    printf ".TH PCH_PIC 3 \"\" \"pch_pic %s\" \"pch_pic\"\n", version
    print ".SH NAME\npch_pic \\- a proved model of the LoongArch PCH\\-PIC interrupt controller"
    print ".SH SYNOPSIS\n.EX\n#include <pch_pic.h>\n.EE\n.PP\nLink with \\fIlibpch_pic.a\\fR.\n.SH DESCRIPTION"
}

NR == 1 { sub(/^\/\* /, ""); print escaped($0); opening = 1; next }
opening && /^ \*\// { ended(); opening = 0; print ".SH CALLS"; next }
opening { sub(/^ \* ?/, ""); first($0); next }

# A comment and the declarations behind it; those that declare no call are left out.
/^\/\*/ { said = ""; comment = 1 }
comment {
    line = $0
    over = sub(/ *\*\/$/, "", line)
    sub(/^\/\* ?/, "", line) || sub(/^ \* ?/, "", line)
    said = said line "\n"
    if (over) comment = 0
    next
}
/^(uint8_t|int16_t) pch_pic_/ { calling = 1; if (!listed) print ".PP\n.EX"; listed = 1 }
calling {
    print escaped($0)
    if ($0 ~ /;$/) calling = 0
    next
}
listed {
    print ".EE"
    count = split(said, lines, "\n")
    for (i = 1; i < count; i++) text(lines[i])
    ended()
    listed = 0
}
