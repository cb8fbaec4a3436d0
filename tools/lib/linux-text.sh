# The few files of Linux that the tools take out of Debian's package linux-source-VERSION. Sourced, after suites.sh; a tool sets 'tool' to its name.
#
#   text_of VERSION                sets text to a folder with them in the user's cache folder, fetched where they are not there
#   unpack VERSION PACKAGE FOLDER  takes them out of a package at hand
#
# Each ends with 1 where they cannot be had, and sets why. The model of KVM is there where that version has it.

# The suites of Debian that have a version.
suites_of() {
    case $1 in
    6.1) echo bookworm ;;
    6.12) echo trixie ;;
    *) echo trixie-backports sid ;;
    esac
}

# The files that the guest is made of.
driver=drivers/irqchip/irq-loongson-pch-pic.c
eiointc=drivers/irqchip/irq-loongson-eiointc.c
needed=("$driver" "$eiointc" kernel/irq/chip.c kernel/irq/handle.c kernel/irq/resend.c)

# unpack VERSION PACKAGE FOLDER: those files, all of them or none.
unpack() {
    local version=$1 package=$2 folder=$3 name new
    new=$(mktemp -d "$folder.XXXXXX") || { why="cannot make $folder"; return 1; }
    dpkg-deb --fsys-tarfile "$package" 2>/dev/null | tar xO "./usr/src/linux-source-$version.tar.xz" 2>/dev/null | xz -dc 2>/dev/null |
        tar x -C "$new" --strip-components=1 --wildcards "${needed[@]/#/*/}" '*/arch/loongarch/kvm/intc/pch_pic.c' '*/arch/loongarch/include/asm/kvm_pch_pic.h' 2>/dev/null
    for name in "${needed[@]}"; do
        [ -s "$new/$name" ] || { why="$(basename "$package") has no $name"; rm -rf "$new"; return 1; }
    done
    basename "$package" >"$new/package"
    rm -rf "$folder" && mv "$new" "$folder"
}

# text_of VERSION: sets text to the folder with those files, fetched where it is not there.
text_of() {
    local version=$1 lists package status=0
    text=$(debian_cache "linux-$version")
    [ ! -s "$text/package" ] || return 0
    mkdir -p "$(dirname "$text")" || { why="cannot make $(dirname "$text")"; return 1; }
    echo "$tool: fetching linux-source-$version into $text" >&2
    lists=$(mktemp -d "$text.lists.XXXXXX")
    # shellcheck disable=SC2046
    if ! debian_open "$lists" $(suites_of "$version"); then
        status=1
    elif ! package=$(debian_deb "$lists" "linux-source-$version"); then
        why=$(tail -n 1 "$lists/log") status=1
        why="linux-source-$version cannot be fetched: ${why:-none of $(suites_of "$version" | sed 's/ / and /') has it}"
    else
        unpack "$version" "$package" "$text" || status=1
    fi
    rm -rf "$lists"
    return $status
}

