# QEMU out of Debian's source package, built once with its own model of the controller, and again with the device of this folder in its place. Sourced by
# tools/boot-linux, after suites.sh; root is the repository and tool the tool's name.
#
#   qemu_tree              sets tree to a folder of the user's cache folder: QEMU's source, built, with 'stock', the program with QEMU's own model
#   qemu_device LIBRARY TO makes the program TO: the same with this library behind hosts/c
#   with_tree COMMAND..    runs a command with the libraries and tools that were unpacked for QEMU, which are not installed
#
# The first two end with 1 where it cannot be done, and set why. A tree is built under a name of its own, which it keeps, since a build knows its place; the name that
# it is found by is a link, made last. So what is half made is never found.

qemu_suite=trixie
tree='' half_made=''

with_tree() {
    local libraries=$tree/libraries folder
    folder=$libraries/usr/lib/$(gcc -print-multiarch)
    env PATH="$PATH:$libraries/usr/bin" PYTHONPATH="$tree/python/usr/lib/python3/dist-packages" LD_LIBRARY_PATH="$folder" PKG_CONFIG_SYSROOT_DIR="$libraries" \
        PKG_CONFIG_PATH="$folder/pkgconfig" "$@"
}

# What a build of QEMU asks of this system, unpacked where it is lacking: as packages of this system, since programs are linked with them.
qemu_libraries() {
    local link found log=$tree/log
    (
        . "$here/lib/debian.sh"
        debian_start "$tree/debian" "$(dpkg --print-architecture)"
        # shellcheck disable=SC2046
        set -- $(debian_lacking libglib2.0-dev libfdt-dev zlib1g-dev ninja-build pkg-config zstd)
        [ $# -eq 0 ] || debian_unpack "$@"
        mv -T "$work/unpacked" "$tree/libraries"
    ) >"$log" 2>&1 || { why="the libraries for QEMU cannot be fetched: $(tail -n 1 "$log" | sed "s/^$tool: //")"; return 1; }
    # A name that stands for a library which is installed already.
    find "$tree/libraries" -xtype l -name '*.so' | while IFS= read -r link; do
        found=$(basename "$(readlink "$link")")
        for found in "/usr/lib/$(gcc -print-multiarch)/$found" "/lib/$(gcc -print-multiarch)/$found"; do [ ! -e "$found" ] || ln -sf "$found" "$link"; done
    done
}

qemu_source() {
    local lists=$tree/lists tarball package
    debian_open "$lists" "$qemu_suite" || return 1
    for package in meson python3-pycotap; do
        package=$(debian_deb "$lists" "$package") && dpkg-deb -x "$package" "$tree/python" 2>/dev/null || { why="QEMU's build needs Debian's package $package, which cannot be fetched"; return 1; }
    done
    tarball=$(debian_source "$lists" qemu "$qemu_suite") || { why="QEMU's source cannot be fetched: $(tail -n 1 "$lists/log")"; return 1; }
    mkdir "$tree/src" && tar xf "$tarball" -C "$tree/src" --strip-components=1 2>/dev/null || { why="$(basename "$tarball") cannot be unpacked"; return 1; }
    basename "$tarball" >"$tree/package"
    rm -rf "$lists"
}

# edit FILE SED COUNT PATTERN: an edit of QEMU's text, after which so many lines have the pattern.
edit() {
    sed -i -E "$2" "$tree/src/$1" 2>/dev/null && [ "$(grep -cE -- "$4" "$tree/src/$1")" -eq "$3" ] && return 0
    why="this QEMU has another shape: $1"
    return 1
}

# What has to change: Debian's tree has no firmware to unpack; an access to an IOCSR is one to a device, without which -icount ends QEMU; and the device gets a
# second file and an archive, both empty for the program with QEMU's own model. That model is kept under another type's name, to stand beside the device.
qemu_edits() {
    local intc=$tree/src/hw/intc
    case $(cat "$tree/src/VERSION" 2>/dev/null) in 10.0.*) ;; *) why="this QEMU has another shape: it is no 10.0"; return 1 ;; esac
    edit meson.build 's/^(edk2_targets = \[).*\]$/\1]/' 1 '^edk2_targets = \[\]$' || return 1
    edit target/loongarch/tcg/insn_trans/trans_privileged.c.inc 's/^( *)func\((dest, tcg_env, src1|tcg_env, addr, val)\);/\1translator_io_start(\&ctx->base); &/' \
        2 'translator_io_start\(&ctx->base\);  *func\(' || return 1
    edit hw/intc/meson.build "s/files\(('loongarch_pch_pic.c'), ('loongarch_pic_common.c')\)/[files(\1, 'loongarch_pch_pic_beside.c', \2), declare_dependency(link_args: ['pch-pic\/device.a'])]/" \
        1 "beside.c.*device\.a'\]" || return 1
    cp "$intc/loongarch_pch_pic.c" "$intc/peer_model.c.inc" && cp "$tree/src/include/hw/intc/loongarch_pch_pic.h" "$intc/peer_names.h" && : >"$intc/loongarch_pch_pic_beside.c" ||
        { why="this QEMU has another shape: no loongarch_pch_pic.c"; return 1; }
    edit hw/intc/peer_names.h 's/"loongarch_pic"/"loongarch_pic_peer"/' 1 '"loongarch_pic_peer"' || return 1
    mkdir -p "$tree/src/build/pch-pic" && ar rc "$tree/src/build/pch-pic/device.a"
}

qemu_configure() {
    local libraries=$tree/libraries folder
    folder=$libraries/usr/lib/$(gcc -print-multiarch)
    (cd "$tree/src/build" && with_tree ../configure --target-list=loongarch64-softmmu --without-default-features --enable-system --enable-tcg --enable-fdt=system --disable-tools \
        --disable-docs --disable-werror --disable-debug-info --disable-install-blobs --enable-trace-backends=log --extra-cflags="-idirafter $libraries/usr/include" \
        --extra-ldflags="-L$folder -Wl,-rpath-link,$folder") >"$tree/log" 2>&1 </dev/null && return 0
    why="QEMU's configure ends with: $(grep -m 1 'ERROR' "$tree/log" || tail -n 1 "$tree/log")"
    return 1
}

# qemu_build: with a line now and then that tells how far it is.
qemu_build() {
    local log=$tree/log pid since=$SECONDS
    (cd "$tree/src/build" && rm -f qemu-system-loongarch64 && with_tree nice -n 10 ninja qemu-system-loongarch64) >"$log" 2>&1 </dev/null &
    pid=$!
    while kill -0 $pid 2>/dev/null; do
        sleep 1
        [ $((SECONDS - since)) -ge 30 ] || continue
        since=$SECONDS
        echo "$tool: building QEMU$(tail -n 1 "$log" | sed -n 's/^\[\([0-9]*\)\/\([0-9]*\)\].*/, step \1 of \2/p')" >&2
    done
    wait $pid && return 0
    why="QEMU does not build: $(grep -m 1 -E 'error[: ]|undefined' "$log" || tail -n 1 "$log")"
    return 1
}

qemu_commands() {
    local command
    for command in gcc ar python3 dpkg flock timeout; do
        command -v $command >/dev/null 2>&1 || { why="$command is missing"; return 1; }
    done
}

qemu_tree() {
    local name
    name=$(debian_cache machine-qemu-10.0)
    qemu_commands || return 1
    if [ -x "$name/stock" ] && [ -s "$name/package" ]; then
        tree=$(readlink -f "$name")
        return 0
    fi
    mkdir -p "$(dirname "$name")" && tree=$(mktemp -d "$name.XXXXXX") || { why="cannot make $name"; return 1; }
    half_made=$tree
    echo "$tool: fetching QEMU's source and what builds it, some 60 MB, into $name" >&2
    qemu_source && qemu_libraries && qemu_edits || return 1
    echo "$tool: building QEMU, about six minutes of processor time, once" >&2
    qemu_configure && qemu_build && cp "$tree/src/build/qemu-system-loongarch64" "$tree/stock" || return 1
    ln -sfn "$(basename "$tree")" "$tree.name" && mv -T "$tree.name" "$name" || { why="cannot make $name"; return 1; }
    half_made=''
}

# The device's parts that know nothing of QEMU, with the library in one archive.
device_archive() {
    local into=$1 library=$2 source
    for source in "$root"/hosts/c/{pic,pic_file,recorder}.c "$here/boot.d/day.c"; do
        gcc -std=c11 -O2 -Wall -Wextra -Werror -pedantic -fPIE -I"$into" -c "$source" -o "$into/$(basename "$source" .c).o" 2>"$tree/log" || return 1
    done
    cp "$library" "$into/device.a" && chmod u+w "$into/device.a" && ar rs "$into/device.a" "$into"/{pic,pic_file,recorder,day}.o 2>"$tree/log"
}

qemu_device() {
    local library=$1 to=$2 intc=$tree/src/hw/intc into=$tree/src/build/pch-pic
    # One tool builds in a tree at a time.
    exec 9>"$tree/lock" && flock 9
    cp "$root/include/pch_pic.h" "$root"/hosts/c/{pic,recorder}.h "$here"/boot.d/{beside,day}.h "$into/" && cp "$here/boot.d/loongarch_pch_pic.c" "$intc/" &&
        cp "$here/boot.d/beside.c" "$intc/loongarch_pch_pic_beside.c" || { why="cannot write below $tree"; return 1; }
    device_archive "$into" "$library" || { why="the device does not build: $(grep -m 1 error "$tree/log" || tail -n 1 "$tree/log")"; return 1; }
    qemu_build && cp "$tree/src/build/qemu-system-loongarch64" "$to" || return 1
    exec 9>&-
}
