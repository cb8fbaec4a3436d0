# How the tools read their words. Sourced. A tool sets 'tool' to its name and has a function 'usage'.
#
# Options are read before anything is built. A word that a tool does not know ends it with status 2 and one line; --help tells the usage; a reader that has
# closed its pipe ends it quietly.

# Where the caller looks for folders is not where the tools do.
unset CDPATH

# stop STATUS WHAT: one line of reason, whatever the names in it hold.
stop() {
    echo "$tool: ${2//[[:cntrl:]]/?}" >&2
    exit "$1"
}

# bad WHAT: what is wrong with the words.
bad() { stop 2 "$1 (see --help)"; }

# wants OPTION WHAT COUNT: an option that has a value must have a word after it; COUNT is how many words there are, with the option.
wants() { [ "$3" -gt 1 ] || bad "$1 wants $2"; }

# no_words WORDS..: a tool that takes none but --help.
no_words() {
    case ${1:-} in
    -h | --help) usage; exit 0 ;;
    esac
    [ $# -eq 0 ] || bad "it takes no words, and not '$1'"
}

# number OPTION VALUE: a value that is to be a number.
number() {
    case $2 in
    '' | *[!0-9]*) bad "$1 wants a number, and not '$2'" ;;
    ???????????????????*) bad "$1 wants a number of 18 digits at most" ;;
    esac
}

# file OPTION VALUE: a value that is to be a file that can be read.
file() { [ -f "$2" ] && [ -r "$2" ] || bad "$1 wants a file that can be read, and not '$2'"; }

# needs_rt: what rt builds, only rt builds.
needs_rt() {
    command -v rt >/dev/null 2>&1 || stop 2 "Rattle's command rt is needed to make $1, and it is not on the PATH"
}

# recorded_answers: the file of recorded answers, which is data of the crate that replays it.
recorded_answers() {
    local found
    for found in "$(dirname "$here")"/crates/*/data/answers.bin; do
        echo "$found"
        break
    done
}

# recorded FOLDER: the files of recorded cases in a folder, each by its name, so that none can be missing.
recorded() {
    local name
    for name in plays conversions differences salvages boards hoists sheets waits plays-on tallies; do echo "$1/$name.bin"; done
}

# damaged FILE PLACE: the file with one bit of the byte at a place changed.
damaged() {
    local byte
    byte=$(od -An -tu1 -j "$2" -N 1 "$1")
    head -c "$2" "$1" && printf '%b' "\\x$(printf %02x $((byte ^ 16)))" && tail -c +$(($2 + 2)) "$1"
}
