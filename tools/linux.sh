#!/usr/bin/env bash
# Linux whose page allocator is the library, compiled from nothing in a folder that goes, and booted: as a program (User
# Mode Linux), and what has to fail in boots of its own; what reads the library's words, in user space; with `qemu` the
# boots in QEMU too, and programs of others there. With `short` it is one boot of some parts, as a program. What the
# machine lacks is said and left out. The last line counts what was tried. It is for the night, and no part of the gate:
# a compilation takes minutes of a processor.
set -u
unset CDPATH MAKEFLAGS MFLAGS
root=$(cd "$(dirname "$0")/.." && pwd)
folder=$(mktemp -d)
trap 'rm -rf "$folder"' EXIT
passed=0 failed=0

# lacks COMMAND..: says which of these commands and files are not here, and which package of Debian has each
lacks() {
    local missing= it package
    for it in "$@"; do
        case $it in
            *linux-source-6.1*) package=linux-source-6.1 ;;
            *libelf*) package=libelf-dev ;;
            *numa.h) package=libnuma-dev ;;
            *capability.h) package=libcap-dev ;;
            qemu*) package=qemu-system-x86 ;;
            cc) package=gcc ;;
            xz) package=xz-utils ;;
            *) package=$it ;;
        esac
        [ -r "$it" ] || command -v "$it" >/dev/null || missing+=", $it ($package)"
    done
    [ -n "$missing" ] && echo "skipped: $machine, for want of ${missing#, }"
}

# tries GOAL [WORD..]: of its log the counts are added up, one for each boot; a goal that stops on its way has failed.
# Before the first boot the log has the counts of the archives.
tries() {
    local counts more fewer ended
    timeout -k 5 10800 make -C "$root/examples/kernel" linux="$folder/linux" seconds=900 "$@" >"$folder/log" 2>&1
    ended=$?
    counts=$(sed '1,\|^mm/boot.sh |d' "$folder/log" | grep -xE '[0-9]+ passed, [0-9]+ failed')
    grep -E ': (ok|failed)$|: left out, |^--- |^Kernel panic .* is not opened|^invalid opcode' "$folder/log" |
        sed "s/^/$machine: /"
    read -r more fewer < <(echo "$counts" | awk '{ passed += $1; failed += $3 } END { print passed + 0, failed + 0 }')
    [ "$ended" = 0 ] || [ "$fewer" != 0 ] || fewer=1
    [ "$fewer" = 0 ] || tail -n 40 "$folder/log" >&2
    passed=$((passed + more)) failed=$((failed + fewer))
}

needs=(/usr/src/linux-source-6.1.tar.xz cc make flex bison bc patch xz busybox cpio)
machine='Linux on the library, as a program'
goals=(um um-trials um-compaction)
[ "${1-}" = short ] && goals=('um RUN=shells,largest,handlers,drain,orders,marks,twice jobs=2')
lacks "${needs[@]}" || for goal in "${goals[@]}"; do tries $goal; done
machine='what reads the words of the library'
[ "${1-}" = short ] || lacks make cc ||
    if make -C "$root/examples/kernel" threads >"$folder/log" 2>&1; then
        passed=$((passed + 1))
    else
        tail -n 40 "$folder/log" >&2
        failed=$((failed + 1))
    fi
machine='Linux on the library, in QEMU'
needs+=(qemu-system-x86_64 /usr/include/libelf.h)
[ "${1-}" != qemu ] || lacks "${needs[@]}" || for goal in mm mm-huge mm-trials; do tries "$goal"; done
machine='Programs of others in it'
needs+=(stress-ng /usr/include/numa.h /usr/include/sys/capability.h)
[ "${1-}" != qemu ] || lacks "${needs[@]}" || tries foreign
echo "$passed passed, $failed failed"
[ "$failed" = 0 ]
