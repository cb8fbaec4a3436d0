# The targets that the C boundary is built for by rustc, and what builds for them. Sourced by tools/archive and tools/try-board; the one place that says so.
#
#   board_targets   prints each target with the machine that it is for
#   is_target T     whether it is one of them
#   board_rust T    sets rustc, the words that compile for target T, and made_by, which compiler that is
#
# The last ends with 1 where it cannot be had, and sets why to one line.

board_lib=$(dirname "$(readlink -f "${BASH_SOURCE[0]}")") || exit 2
. "$board_lib/target.sh"
. "$board_lib/debian.sh"
rustc=() made_by='' why=''

board_targets() {
    cat <<'TEXT'
loongarch64-unknown-none-softfloat  LoongArch, kernels and hypervisors: no floating-point register is used
loongarch64-unknown-linux-gnu       LoongArch, Linux
aarch64-unknown-linux-gnu           AArch64, Linux
aarch64-unknown-none-softfloat      AArch64, kernels and hypervisors: no floating-point register is used
riscv64gc-unknown-none-elf          RISC-V of 64 bits, kernels and hypervisors
x86_64-unknown-none                 x86-64, kernels and hypervisors: no SSE register, no red zone
x86_64-unknown-linux-gnu            x86-64, Linux, for comparison with the proved archive
TEXT
}

is_target() { board_targets | awk -v name="$1" '$1 == name { found = 1 } END { exit !found }'; }

# board_flags T: LoongArch's vectors, which Rust takes on Linux, are not in every machine and have nothing to do here.
board_flags() {
    case $1 in
    loongarch64-*-linux-*) echo -Ctarget-feature=-lsx ;;
    esac
}

# board_rust T: the machine's own compiler where it has core for the target, else the one that is fetched, with core built from source.
board_rust() {
    local libs flags
    flags=$(board_flags "$1")
    if libs=$(rustc --print target-libdir --target "$1" 2>/dev/null) && compgen -G "$libs/libcore-*.rlib" >/dev/null; then
        rustc=(rustc)
        made_by="$(rustc --version | cut -d' ' -f1,2), with its own core"
    else
        fetched_rust "$1" ${flags:+"$flags"} || return 1
    fi
    rustc+=(--target "$1" ${flags:+"$flags"})
}

# fetched_rust T FLAG..: the compiler that is fetched, with core built from source.
fetched_rust() {
    local core compiler log
    if [ -t 2 ] && ! compgen -G "$(kept_folder 'core-*')/$1*" >/dev/null; then echo "core for $1 is fetched and built, once: a minute or two" >&2; fi
    log=$(mktemp) || return 1
    if core=$(once board "$board_lib/rust-core" "$@" 2>"$log") && compiler=$("$board_lib/cross-rust" 2>>"$log"); then
        rm "$log"
        rustc=("$compiler/bin/rustc" --sysroot "$core")
        made_by="$("$compiler/bin/rustc" --version | cut -d' ' -f1,2) of Debian's rustc-web, with core built from its source"
        return 0
    fi
    why=$(tail -n 1 "$log")
    rm "$log"
    why="core for $1 cannot be had: ${why:-its packages could not be fetched within the last hour}"
    return 1
}
