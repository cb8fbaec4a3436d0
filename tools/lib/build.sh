# How the tools build below target/. Sourced after words.sh; root is the repository.
#
# One tool builds at a time. What it builds it makes aside and then renames, so that nobody meets half of it. A program that does not start is built again.

# folders FOLDER..: makes folders to build in, or says in one line why it cannot.
folders() {
    local folder
    for folder in "$@"; do
        mkdir -p "$folder" 2>/dev/null && [ -w "$folder" ] || stop 2 "it cannot write to $folder"
    done
}

# alone: waits until no other tool builds below target/, and keeps others waiting until not_alone, or the end. A tool that is called by one that
# builds goes on at once. Without the command flock nobody waits, and what is built last stays.
alone() {
    [ -z "${PCH_PIC_BUILDING:-}" ] || return 0
    folders "$root/target"
    command -v flock >/dev/null 2>&1 || return 0
    exec {building}>>"$root/target/building"
    if ! flock -n "$building"; then
        echo "$tool: another tool builds here; it waits for that" >&2
        flock "$building"
    fi
    export PCH_PIC_BUILDING=$$
}

not_alone() {
    [ "${PCH_PIC_BUILDING:-}" = $$ ] || return 0
    exec {building}>&-
    unset PCH_PIC_BUILDING
}

# newer FILE SOURCE..: whether a file is missing, or something of its sources is newer.
newer() { [ ! -f "$1" ] || [ -n "$(find "${@:2}" -newer "$1" -type f -print -quit)" ]; }

# starts STATUS PROGRAM: whether a program without words ends with this status, as it does where it is whole.
starts() {
    local status
    [ -s "$2" ] && [ -x "$2" ] || return 1
    # In a shell of its own, which also tells nobody by what signal it ended.
    (${run[@]+"${run[@]}"} "$2" </dev/null; exit $?) >/dev/null 2>&1
    status=$?
    [ $status -eq "$1" ]
}

# aside FILE: the name under which it is built, in the same folder; in_place FILE: that is whole, and takes its name.
aside() { echo "${1%/*}/building-$$-${1##*/}"; }
in_place() { mv -f "$(aside "$1")" "$1" || stop 1 "it cannot write $1"; }
