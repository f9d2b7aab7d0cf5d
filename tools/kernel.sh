#!/usr/bin/env bash
# Tries the library for kernels, which it builds where it has to: an archive that a kernel may link, one that Linux
# may, and that others are refused; the programs in C over it; then the kernels of examples/kernel in QEMU, and what
# has to fail in them. What the machine lacks is said and left out. The last line counts what was tried.
set -u
unset CDPATH MAKEFLAGS MFLAGS
root=$(cd "$(dirname "$0")/.." && pwd)
library=$root/build/libllfree
folder=$(mktemp -d)
trap 'rm -rf "$folder"' EXIT
passed=0
fails() {
    tail -n 20 "$folder/log" >&2
    echo "$1: failed" >&2
    echo "$passed passed, 1 failed"
    exit 1
}
passes() {
    echo "$1: ok"
    passed=$((passed + 1))
}
# lacks NAME COMMAND..: says which of these commands are not here, and which package of Debian has each
lacks() {
    local name=$1 missing= package
    shift
    for command in "$@"; do
        case $command in
            objdump | nm | readelf) package=binutils ;;
            qemu*) package=qemu-system-x86 ;;
            make | busybox | cpio) package=$command ;;
            *) package=gcc ;;
        esac
        command -v "$command" >/dev/null || missing+=", $command ($package)"
    done
    [ -n "$missing" ] && echo "skipped: $name, for want of ${missing#, }"
}
# tries NAME COMMAND..
tries() {
    local name=$1
    shift
    "$@" >"$folder/log" 2>&1 || fails "$name"
    passes "$name"
}

if lacks 'the library for kernels' objdump nm readelf make; then
    echo '0 passed, 0 failed'
    exit
fi
tries 'archives for kernels are built, and may be linked' make -s -C "$root" library kernel
! "$root/tools/kernel_check.sh" "${library}_c.a" >"$folder/log" || fails 'the ordinary archive is refused'
grep -q '^6 passed, 2 failed$' "$folder/log" || fails 'just its registers and its red zone are refused'
passes 'the ordinary archive is refused for its registers and its red zone'
! "$root/tools/kernel_check.sh" "${library}_linux.a" >"$folder/log" || fails 'a name too many is refused'
grep -q '^7 passed, 1 failed$' "$folder/log" || fails 'just a name too many is refused'
passes 'a name too many is refused'

# runs SOURCE: the program is well over the archive for kernels
runs() {
    local with=("${library}_kernel.a" "$(dirname "$(rt doc)")/c/liblibc_c.a" -lpthread)
    # its heap may be its own
    ! grep -q '^struct rattle_block rattle_alloc' "$1" || with=("${library}_kernel.a")
    "${CC:-cc}" -O2 -I"$root/include" -o "$folder/program" "$1" "${with[@]}" && "$folder/program" >"$folder/out" &&
        { [ ! -f "${1%.c}.out" ] || diff "${1%.c}.out" "$folder/out"; }
}
lacks 'the programs in C' "${CC:-cc}" || for source in "$root"/examples/c/*.c "$root"/tools/c/*.c; do
    tries "$(basename "$source") over the archive for kernels" runs "$source"
done

lacks 'the kernels' "${CC:-cc}" make qemu-system-x86_64 || {
    tries 'a kernel of its own' make -C "$root/examples/kernel" qemu
    tries 'what has to fail in it' make -C "$root/examples/kernel" trials
    lacks 'the module of Linux' busybox cpio || {
        release=$(basename "$(dirname "$(ls -d /lib/modules/*/build 2>/dev/null | tail -n 1)")")
        if [ ! -d "/lib/modules/$release/build" ]; then
            echo 'skipped: the module of Linux, for want of its headers (linux-headers-amd64)'
        elif [ ! -r "/boot/vmlinuz-$release" ] && [ ! -r "$root/examples/kernel/out/vmlinuz" ]; then
            echo 'skipped: the module of Linux, for want of a kernel to load it (linux-image-amd64)'
        else
            tries 'a module of Linux' make -C "$root/examples/kernel" linux
        fi
    }
}
echo "$passed passed, 0 failed"
