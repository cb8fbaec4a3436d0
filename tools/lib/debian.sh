# Debian's packages, unpacked into a folder of their own: nothing is installed, and root is not needed. Sourced; 'tool' is the name that errors begin with.
#
#   kept_folder NAME       where what is fetched is kept between runs: NAME in the user's cache folder
#   debian_start FOLDER KIND..  makes a place beside FOLDER, with lists for these kinds of machine (amd64 ..): sets work, which goes at the end, and apt
#   debian_lacking PACKAGE..    prints these packages and what they need that this system lacks
#   debian_unpack PACKAGE..     fetches packages and unpacks them into $work/unpacked
#   debian_keep FOLDER PROOF    moves that to FOLDER. Another run may have been quicker: then PROOF is there, and that is as well
#
# Each ends the tool with 1 and one line where it cannot be done.

die() {
    echo "$tool: $1" >&2
    exit 1
}

kept_folder() { echo "${XDG_CACHE_HOME:-${HOME:-/tmp}/.cache}/pch-pic/$1"; }

debian_start() {
    local folder=$1 command kind
    shift
    for command in apt-get apt-cache dpkg; do
        command -v $command >/dev/null 2>&1 || die "$command is missing: Debian's packages cannot be fetched"
    done
    mkdir -p "$(dirname "$folder")" || die "cannot make $(dirname "$folder")"
    work=$(mktemp -d "$folder.XXXXXX") || die "cannot write beside $folder"
    trap 'rm -rf "$work"' EXIT
    mkdir -p "$work/state/lists/partial" "$work/cache/archives/partial" "$work/debs" "$work/unpacked"
    # Lists and caches of its own: what apt knows of this system stays as it is.
    apt=(-o "Dir::State=$work/state" -o Dir::State::status=/var/lib/dpkg/status -o "Dir::Cache=$work/cache" -o APT::Sandbox::User=root
        -o Acquire::http::Timeout=30 -qq)
    for kind in "$@"; do apt+=(-o "APT::Architectures::=$kind"); done
    apt-get "${apt[@]}" update >&2 || die "Debian's lists cannot be fetched"
}

debian_lacking() {
    apt-get "${apt[@]}" install -s --no-install-recommends "$@" | awk '$1 == "Inst" { print $2 }'
}

debian_unpack() {
    local file
    (cd "$work/debs" && apt-get "${apt[@]}" download "$@") >&2 || die "Debian's packages cannot be fetched"
    for file in "$work"/debs/*.deb; do
        case ${file##*/} in
        # Of the compiler's sources only what core is made of, a tenth of them.
        rust*-src_*) dpkg --fsys-tarfile "$file" | tar -xC "$work/unpacked" --wildcards './usr/src/*/library/core/*' './usr/src/*/library/stdarch/*' \
            './usr/src/*/library/portable-simd/*' || die "${file##*/} has no source of core" ;;
        *) dpkg -x "$file" "$work/unpacked" || die "${file##*/} cannot be unpacked" ;;
        esac
        rm "$file"
    done
}

debian_keep() {
    mv -T "$work/unpacked" "$1" 2>/dev/null || [ -e "$2" ] || die "cannot make $1"
}
