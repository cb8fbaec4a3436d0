# A first file system for a kernel, made without cpio. Sourced. The caller sets members to 0, and ends with member 'TRAILER!!!' 0 ''.
#
#   member NAME MODE FILE   prints a member of an archive of form newc: a folder, or a FILE under that name

# Thirteen numbers, the name and the file, each to a multiple of four bytes.
member() {
    local name=$1 mode=$((8#$2)) file=$3 size=0
    [ -z "$file" ] || size=$(stat -c %s "$file")
    members=$((members + 1))
    printf 070701
    printf '%08x' $members $mode 0 0 1 0 "$size" 0 0 0 0 $((${#name} + 1)) 0
    printf '%s\0' "$name"
    head -c $(((4 - (110 + ${#name} + 1) % 4) % 4)) /dev/zero
    [ -z "$file" ] || cat "$file"
    head -c $(((4 - size % 4) % 4)) /dev/zero
}
