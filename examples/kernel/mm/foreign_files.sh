#!/usr/bin/env bash
# Packs what foreign.sh runs: foreign_files.sh SOURCES LINUX SAME OUT. SOURCES is Debian's package of Linux' sources,
# LINUX the folder where Linux for a program was compiled from them by make with the words SAME, OUT an archive of cpio.
set -euo pipefail
here=$(cd "$(dirname "$0")" && pwd)
sources=$1 linux=$2 same=$3 out=$4
files=$(mktemp -d) work=$(mktemp -d)
trap 'rm -rf "$files" "$work"' EXIT
chmod 755 "$files" # it becomes the root of all, which everybody may enter
mkdir -p "$files/selftests" "$files/usr/bin"
cp "$here/foreign.sh" "$files"
cp "$here/selftests" "$files/selftests/list"

# with_libraries PROGRAM..: each at its place, and what it loads
with_libraries() {
    local program
    for program in "$@"; do
        cp -L --parents "$program" "$files"
        { ldd "$program" || true; } 2>/dev/null | grep -o '/[^ ]*' | xargs -r cp -L --parents -t "$files"
    done
}

# Linux' selftests
tar xf "$sources" -C "$work" --strip-components=1 --wildcards '*/tools/testing/selftests/vm/*' \
    '*/tools/testing/selftests/kselftest*.h' '*/mm/gup_test.h' '*/include/vdso/time64.h'
cd "$work/tools/testing/selftests/vm"
cc -w -c vm_util.c
ar r vm_util.a vm_util.o
for name in *.c; do
    name=${name%.c}
    ! sed 's/#.*//' "$here/selftests" | grep -qw "$name" ||
        cc -w -mxsave -static -I "$work" -o "$files/selftests/$name" "$name.c" vm_util.a -lpthread -lrt -lnuma -lcap
done
cp "$linux"/mm/lib/test_vmalloc.ko "$files"

with_libraries "$(command -v stress-ng)"

# the compiler by its usual names, and what it links to programs
for tool in gcc as ld nm ar objcopy strip make bash bc; do
    program=$(realpath "$(command -v $tool)")
    with_libraries "$program"
    [ "$program" = "/usr/bin/$tool" ] || ln -s "$program" "$files/usr/bin/$tool"
done
mkdir -p "$files/bin"
ln -s /usr/bin/bash "$files/bin/bash"
ln -s /bin/busybox "$files/usr/bin/env"
with_libraries "$(gcc -print-prog-name=cc1)" "$(gcc -print-prog-name=collect2)"
for name in crt1.o Scrt1.o crti.o crtn.o crtbegin.o crtbeginS.o crtend.o crtendS.o libgcc.a libgcc_s.so libgcc_s.so.1 \
    libc.so libc_nonshared.a libpthread.a librt.a libutil.a liblto_plugin.so crtbeginT.o libgcc_eh.a libc.a; do
    cp -L --parents "$(realpath "$(gcc -print-file-name=$name)")" "$files"
done

# of Linux' sources those that its last compilation read, those that say how to compile, and what make does not note; of
# what it made no objects
unread='arch/[^ux]* drivers/* fs/* net/* samples/* sound/* tools/*'
{
    find "$linux/um" -name '.*.cmd' -exec cat {} + | tr -s ' \\:()' '\n' | grep '^/' | sort -u |
        while read -r file; do [ ! -f "$file" ] || echo "$file"; done
    find -L /usr/include "$(gcc -print-file-name=include)" -name '*.h' ! -path '*/c++/*'
    find "$linux/source" -name 'Makefile*' -o -name 'Kbuild*' -o -name 'Kconfig*'
    set -f
    find "$linux/source" -type f $(printf "! -path $linux/source/%s " $unread)
    set +f
    find "$linux/um/scripts" -type f
    find "$linux/um" -type f ! -name '*.[oa]' ! -name '*.so*' ! -name vmlinux ! -name linux ! -name image \
        ! -name ordinary ! -name initramfs
} | sort -u | cpio -p -dmL --quiet "$files"
# busybox runs its own ar, unless it is told where another is
echo "-C $linux/source $same AR=/usr/bin/ar O=$linux/um ARCH=um SUBARCH=x86_64 linux" >"$files/make"
echo "$linux" >"$files/linux"
sha256sum "$linux/um/linux" >"$files/sum"
cd "$files"
find . | cpio -o -H newc --quiet | gzip -1 >"$out"
