# Files out of packages of any suite of Debian, without installing any; debian.sh is for packages of this system's own. Sourced. Lists and downloads are its own:
# what apt knows of this system stays as it is.
#
#   debian_cache NAME            prints the folder NAME in the user's cache folder (PCH_PIC_CACHE, or pch-pic in it), which may not be there yet
#   debian_open FOLDER SUITE..   makes lists of these suites in FOLDER, from the mirror that this system uses. Further calls take FOLDER
#   debian_deb FOLDER PACKAGE    fetches a package of any of the suites, the newest there is, and prints its file
#   debian_source FOLDER PACKAGE SUITE  fetches the original tar file of a source package, and prints its file
#
# Each ends with 1 where it cannot be had, and sets why, or prints nothing. debian_kind says for which kind of machine, as loong64, where it is not this one's.

why='' debian_kind=''

debian_cache() { echo "${PCH_PIC_CACHE:-${XDG_CACHE_HOME:-${HOME:-/tmp}/.cache}/pch-pic}/$1"; }

# The archive that apt is set to on this machine: no mirror is named here.
debian_mirror() {
    local lists
    lists=$(apt-config shell folder Dir::Etc/d 2>/dev/null) || return 1
    local folder=/etc/apt/
    eval "$lists"
    cat "$folder"sources.list "$folder"sources.list.d/*.list "$folder"sources.list.d/*.sources 2>/dev/null | awk '/^#/ { next }
        $1 == "URIs:" { for (i = 2; i <= NF; i++) print $i }
        $1 == "deb" { for (i = 2; i <= NF; i++) if ($i ~ /:\/\//) print $i }' |
        grep -E '/debian/?$' | head -n 1
}

debian_apt=()
debian_options() {
    debian_apt=(-o "Dir::State=$1/state" -o "Dir::State::status=$1/status" -o "Dir::Cache=$1/cache" -o "Dir::Etc::sourcelist=$1/sources.list"
        -o Dir::Etc::sourceparts=- -o APT::Sandbox::User=root -o Acquire::Languages=none -o Acquire::http::Timeout=30 -o Acquire::Retries=2 -qq)
    [ -z "$debian_kind" ] || debian_apt+=(-o "APT::Architecture=$debian_kind" -o "APT::Architectures::=$debian_kind")
}

debian_open() {
    local folder=$1 mirror suite
    shift
    if ! command -v apt-get >/dev/null 2>&1 || ! command -v dpkg-deb >/dev/null 2>&1; then
        why="apt-get or dpkg-deb is missing: Debian's packages cannot be fetched"
        return 1
    fi
    mirror=$(debian_mirror)
    [ -n "$mirror" ] || { why="apt knows no mirror of Debian here"; return 1; }
    mkdir -p "$folder/state/lists/partial" "$folder/cache/archives/partial" || { why="cannot make $folder"; return 1; }
    : >"$folder/status"
    for suite; do
        echo "deb $mirror $suite main"
        echo "deb-src $mirror $suite main"
    done >"$folder/sources.list"
    debian_options "$folder"
    apt-get "${debian_apt[@]}" -o APT::Update::Error-Mode=any update >"$folder/log" 2>&1 || { why="Debian's lists cannot be fetched: $(tail -n 1 "$folder/log")"; return 1; }
}

debian_deb() {
    local folder=$1 package=$2 version
    debian_options "$folder"
    rm -f "$folder/$package"_*.deb
    # A backport is no candidate by itself, so the version is named.
    version=$(apt-cache "${debian_apt[@]}" show "$package" 2>/dev/null | awk '$1 == "Version:" { print $2; exit }')
    [ -n "$version" ] || return 1
    (cd "$folder" && apt-get "${debian_apt[@]}" download "$package=$version" >>log 2>&1) || return 1
    compgen -G "$folder/${package}_*.deb"
}

debian_source() {
    local folder=$1 package=$2 suite=$3
    debian_options "$folder"
    rm -f "$folder/$package"_*.orig.tar.*
    (cd "$folder" && apt-get "${debian_apt[@]}" --download-only --only-source -t "$suite" source "$package" >>log 2>&1) || return 1
    compgen -G "$folder/${package}_*.orig.tar.*" | grep -v '\.asc$' | head -n 1
}
