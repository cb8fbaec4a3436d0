# Debian's Linux for LoongArch, unpacked: kernel, a module, busybox and firmware. Sourced by tools/boot-linux, after suites.sh, newc.sh and qemu.sh.
#
#   guest_files         sets guest to a folder of the user's cache folder with linux, virtio_blk.ko, busybox, QEMU_EFI.fd and package
#   guest_initrd TO     makes the first file system: busybox, the module, and tools/boot.d/init
#
# Each ends with 1 where it cannot be done, and sets why.

guest_suite=sid
guest=''

# A kernel that unpacks itself by firmware says so in its head: where what is packed begins, how long it is, and by what it was packed. QEMU has to be given what is in it.
unpacked_kernel() {
    local from=$1 to=$2 begins length
    if [ "$(od -An -tx1 -j 4 -N 4 "$from" | tr -d ' ')" != 7a696d67 ]; then
        cp "$from" "$to"
        return
    fi
    read -r begins length < <(od -An -tu4 -j 8 -N 8 "$from")
    tail -c +$((begins + 1)) "$from" | head -c "$length" | case $(od -An -c -j 24 -N 4 "$from" | tr -d ' ') in
    zstd) with_tree zstd -dcq ;;
    gzip) gzip -dc ;;
    xz*) xz -dc ;;
    *) false ;;
    esac >"$to" 2>/dev/null
}

# take PACKAGE NAME TO: the first file of a package whose name is that, unpacked where it is packed.
take() {
    local file
    file=$(dpkg-deb --fsys-tarfile "$1" 2>/dev/null | tar t 2>/dev/null | grep -E "/$2(\.xz|\.zst|\.gz)?$" | head -n 1)
    [ -n "$file" ] || { why="$(basename "$1") has no $2"; return 1; }
    dpkg-deb --fsys-tarfile "$1" | tar xO "$file" | case $file in
    *.xz) xz -dc ;;
    *.zst) with_tree zstd -dcq ;;
    *.gz) gzip -dc ;;
    *) cat ;;
    esac >"$3" 2>/dev/null && [ -s "$3" ] || { why="$(basename "$1"): $2 cannot be unpacked"; return 1; }
}

# The kernel's version, out of the package that always names the newest.
kernel_version() {
    apt-cache "${debian_apt[@]}" show linux-image-loong64 2>/dev/null | sed -n '/^Depends:/ { s/.*linux-image-\([0-9][^ ,]*\).*/\1/p; q }'
}

# guest_take INTO LISTS: of a kernel that comes in one package, or in one for the image and one for the modules.
guest_take() {
    local into=$1 lists=$2 version image modules busybox firmware
    version=$(kernel_version)
    [ -n "$version" ] || { why="Debian's $guest_suite has no linux-image-loong64"; return 1; }
    image=$(debian_deb "$lists" "linux-binary-$version") || image=$(debian_deb "$lists" "linux-image-$version") || { why="linux-image-$version cannot be fetched"; return 1; }
    modules=$(debian_deb "$lists" "linux-modules-$version") || modules=$image
    busybox=$(debian_deb "$lists" busybox-static) || { why="busybox-static for loong64 cannot be fetched"; return 1; }
    firmware=$(debian_deb "$lists" qemu-efi-loongarch64) || { why="qemu-efi-loongarch64 cannot be fetched"; return 1; }
    take "$image" 'vmlinuz[^/]*' "$lists/vmlinuz" && take "$modules" 'virtio_blk.ko' "$into/virtio_blk.ko" && take "$busybox" busybox "$into/busybox" &&
        take "$firmware" QEMU_EFI.fd "$into/QEMU_EFI.fd" || return 1
    unpacked_kernel "$lists/vmlinuz" "$into/linux" && [ -s "$into/linux" ] || { why="$(basename "$image"): the kernel cannot be unpacked"; return 1; }
    for image in "$image" "$busybox" "$firmware"; do basename "$image"; done >"$into/package"
}

guest_files() {
    local new status=0
    guest=$(debian_cache guest-loong64)
    [ ! -s "$guest/package" ] || return 0
    mkdir -p "$(dirname "$guest")" && new=$(mktemp -d "$guest.XXXXXX") || { why="cannot make $guest"; return 1; }
    half_made=$new
    echo "$tool: fetching Debian's Linux for LoongArch, some 85 MB, into $guest" >&2
    mkdir "$new/files"
    debian_kind=loong64
    debian_open "$new/lists" "$guest_suite" && guest_take "$new/files" "$new/lists" || status=1
    debian_kind=''
    [ $status -ne 0 ] || { rm -rf "$guest" && mv -T "$new/files" "$guest"; } || { why="cannot make $guest" status=1; }
    rm -rf "$new"
    half_made=''
    return $status
}

guest_initrd() {
    local members=0
    {
        member bin 040755 ''
        member bin/busybox 100755 "$guest/busybox"
        member init 100755 "$here/boot.d/init"
        member virtio_blk.ko 100644 "$guest/virtio_blk.ko"
        member 'TRAILER!!!' 0 ''
    } >"$1" || { why="cannot write $1"; return 1; }
}
