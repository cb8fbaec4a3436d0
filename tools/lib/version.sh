# The version, which stands in include/pch_pic.h. Sourced after words.sh; root is the repository.

# header_version: what the header says.
header_version() {
    local version
    version=$(sed -n 's/^#define PCH_PIC_VERSION "\(.*\)"$/\1/p' "$root/include/pch_pic.h" 2>/dev/null)
    # What is linked has room for so many letters (pch_pic_linked).
    case $version in
    '' | *[!0-9.]* | ????????????????*) stop 2 "include/pch_pic.h has no version" ;;
    esac
    echo "$version"
}

# archive_version FILE: what an archive says of itself, for whatever machine it is; nothing where it says none.
archive_version() { LC_ALL=C grep -ao 'pch_pic [0-9][0-9.]*' "$1" 2>/dev/null | sed -n '1s/^pch_pic //p'; }
