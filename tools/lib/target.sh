# Which compilers make programs for x86-64 Linux on this machine, and what runs them. Sourced by the tools; the one place that says so.
#
# libpch_pic.a and the proved programs are for x86-64 Linux. On such a machine these are gcc, g++, rustc and cargo, and programs run by
# themselves. Elsewhere Debian's cross compiler and qemu-user take their place, installed where they are missing and that can be done, and a
# Rust compiler that has the standard library for x86-64 (tools/lib/cross-rust).
#
#   x86_run    sets run: the words to put before a program, none on x86-64
#   x86_c      sets cc and cxx (none where there is no C++ compiler), and run
#   x86_rust   sets rustc and run, and what cargo needs to build for x86-64
#   here_rust  sets rustc and run for this machine itself, whatever it is
#   x86_checks sets checks: gcc's run-time checks that work here (the address checks do not under qemu)
#   x86_valgrind  sets valgrind: the words to run a program under it; none where it cannot be had or cannot run x86-64 programs
#
# Each of the first three ends with 1 where it cannot be had, and sets why to one line. What is then left out is told, and not counted as passed.

triple=x86_64-unknown-linux-gnu
cross=/usr/x86_64-linux-gnu
run=() cc=() cxx=() rustc=() checks=() valgrind=() why=''
target_lib=$(dirname "$(readlink -f "${BASH_SOURCE[0]}")") || exit 2
target_root=$(dirname "$(dirname "$target_lib")") || exit 2

on_x86() { [ "$(uname -m)" = x86_64 ]; }

# once NAME COMMAND..: what could not be fetched is not tried again within the hour: without a network each try may wait long.
once() {
    local stamp=$target_root/target/not-fetched-$1
    shift
    [ -z "$(find "$stamp" -mmin -60 2>/dev/null)" ] || return 1
    "$@" && return 0
    mkdir -p "$target_root/target" && touch "$stamp"
    return 1
}

# install_packages PACKAGE..: Debian packages, where that can be done.
install_packages() {
    [ "$(id -u)" -eq 0 ] && command -v apt-get >/dev/null 2>&1 || return 1
    once "$1" fetch_packages "$@"
}
fetch_packages() {
    local apt=(apt-get -qq -o Acquire::http::Timeout=30)
    echo "installing $*" >&2
    mkdir -p "$target_root/target"
    { "${apt[@]}" update && DEBIAN_FRONTEND=noninteractive "${apt[@]}" install -y --no-install-recommends "$@"; } >"$target_root/target/apt.log" 2>&1 </dev/null
}

system_run() {
    [ -e "$cross/lib64/ld-linux-x86-64.so.2" ] && command -v qemu-x86_64 >/dev/null 2>&1 && run=(qemu-x86_64 -L "$cross")
}

x86_run() {
    run=()
    if on_x86; then return 0; fi
    if system_run; then return 0; fi
    install_packages qemu-user libc6-amd64-cross
    if system_run; then return 0; fi
    why="nothing here runs x86-64 programs (on Debian: qemu-user and libc6-amd64-cross)"
    return 1
}

x86_c() {
    if on_x86; then
        run=() cc=(gcc) cxx=()
        if command -v g++ >/dev/null 2>&1; then cxx=(g++); fi
        return 0
    fi
    if ! command -v x86_64-linux-gnu-gcc >/dev/null 2>&1 || [ ! -e "$cross/include/stdio.h" ]; then
        install_packages gcc-x86-64-linux-gnu g++-x86-64-linux-gnu libc6-dev-amd64-cross qemu-user
    fi
    if ! command -v x86_64-linux-gnu-gcc >/dev/null 2>&1 || [ ! -e "$cross/include/stdio.h" ]; then
        why="no C compiler for x86-64 here (on Debian: gcc-x86-64-linux-gnu and libc6-dev-amd64-cross)"
        return 1
    fi
    cc=(x86_64-linux-gnu-gcc) cxx=()
    if command -v x86_64-linux-gnu-g++ >/dev/null 2>&1; then cxx=(x86_64-linux-gnu-g++); fi
    x86_run
}

# has_std COMMAND: whether a rustc has the standard library for x86-64.
has_std() {
    local libs
    libs=$("$1" --print target-libdir --target "$triple" 2>/dev/null) && compgen -G "$libs/libstd-*.rlib" >/dev/null
}

x86_rust() {
    local folder
    if ! on_x86; then
        x86_c || return 1
        if has_std rustc; then
            rustc=(rustc)
        elif folder=$(once rust "$target_lib/cross-rust"); then
            rustc=("$folder/bin/rustc")
            export RUSTC=$folder/bin/rustc RUSTDOC=$folder/bin/rustdoc
        else
            why="no Rust compiler for x86-64 here (with rustup: rustup target add $triple)"
            return 1
        fi
        rustc+=(--target "$triple" -C "linker=${cc[0]}")
        export CARGO_TARGET_X86_64_UNKNOWN_LINUX_GNU_LINKER=${cc[0]} CARGO_TARGET_X86_64_UNKNOWN_LINUX_GNU_RUNNER="${run[*]}"
    elif command -v rustc >/dev/null 2>&1; then
        rustc=(rustc) run=()
    else
        why="no Rust compiler here"
        return 1
    fi
    export CARGO_BUILD_TARGET=$triple
}

here_rust() {
    unset RUSTC RUSTDOC CARGO_BUILD_TARGET
    rustc=(rustc) run=()
}

x86_checks() {
    checks=(-fsanitize=undefined -fno-sanitize-recover)
    if on_x86; then checks=(-fsanitize=address,undefined -fno-sanitize-recover); fi
}

# valgrind is no prerequisite, and it runs programs of the machine's own kind alone.
x86_valgrind() {
    valgrind=()
    if ! on_x86; then return 0; fi
    command -v valgrind >/dev/null 2>&1 || install_packages valgrind libc6-dbg
    if command -v valgrind >/dev/null 2>&1; then valgrind=(valgrind -q --error-exitcode=9); fi
}
