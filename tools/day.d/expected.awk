# The lines that numbers.awk is to give, from the sheet as ./run --sheet --csv prints it. The columns are found by their names.
BEGIN { FS = "," }
NR == 1 { for (at = 1; at <= NF; at++) column[$at] = at; next }
# A row that tells of a hole has no numbers.
/^hole at / { next }
{
    some = 0
    for (at = 2; at <= NF; at++) some = some || $at != 0
    if (!some && $1 != "total") next
    print "sheet," $0
    if ($1 != "total") drawn[++inputs] = "drawn," $1 "," $column["greatest_wait"] "," $column["withdrawn"] "," $column["open"] "," $column["dropped"]
}
END { for (at = 1; at <= inputs; at++) print drawn[at] }
