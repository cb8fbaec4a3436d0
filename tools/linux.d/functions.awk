# Prints functions of a C file of the kernel, word for word. -v names="one two"; a name that the file does not define is left out.
BEGIN { count = split(names, wanted, " ") }
inside == 0 && /^[a-z]/ && !/;[ \t]*$/ {
    for (i = 1; i <= count; i++)
        if ($0 ~ ("[ *]" wanted[i] "\\(")) inside = 1
}
inside > 0 { print }
inside == 1 && /^\{/ { inside = 2 }
inside == 1 && /;[ \t]*$/ { inside = 0 }
inside == 2 && /^\}/ { inside = 0; print "" }
