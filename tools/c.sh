#!/usr/bin/env bash
# Tries the library for C, which make builds where it has to: the header names what the library exports, as
# C and as C++; the library asks for nothing but a heap; and the programs of examples/c and tools/c run,
# plainly and under what the compiler has to watch over memory, or just with the flags that are named. One
# is in C++, one in Rust, one is run under valgrind, and one is built from what is installed: by hand, by pkg-config
# and by CMake; Python and man find what is installed, and it is a package of Debian. What the machine lacks is said and
# left out.
# The last line counts what was tried.
set -eu
unset CDPATH MAKEFLAGS MFLAGS
root=$(cd "$(dirname "$0")/.." && pwd)
cc=${CC:-cc}
library=$root/build/libllfree_c.a
heap=$(dirname "$(rt doc)")/c/liblibc_c.a
folder=$(mktemp -d)
trap 'rm -rf "$folder"' EXIT
passed=0
fails() {
    echo "$1" >&2
    echo "$passed passed, 1 failed"
    exit 1
}
passes() {
    echo "$1: ok"
    passed=$((passed + 1))
}
# skips WHAT COMMAND PACKAGE: says that it is left out
skips() { echo "skipped: $1, for want of $2 ($3)"; }
command -v "$cc" >/dev/null || { skips 'the library for C' "$cc" gcc; echo '0 passed, 0 failed'; exit 0; }
command -v make >/dev/null || { skips 'the library for C' make make; echo '0 passed, 0 failed'; exit 0; }
make -s -C "$root" library >"$folder/log" 2>&1 || { tail -n 20 "$folder/log" >&2; fails 'the library is not built'; }

nm "$library" | awk '$2 == "T" && $3 ~ /^llfree_/ { print $3 }' | sort >"$folder/exported"
# what the header writes out itself is not exported
grep -v '^static inline' "$root/include/llfree.h" | grep -o '\bllfree_[a-z_]*(' | tr -d '(' | sort -u >"$folder/declared"
diff "$folder/exported" "$folder/declared" || fails 'the header and the library differ'
passes 'the names of the header and of the library'
grep -qxF "#define LLFREE_VERSION \"$(cat "$root/VERSION")\"" "$root/include/llfree.h" ||
    fails 'the header has another version than the file VERSION'
passes 'the version of the header'

# what every C compiler wants of a program without a C library, and the heap
if nm -u "$library" | awk 'NF == 2 { print $2 }' | grep -vxE 'mem(cpy|move|set|cmp)|rattle_(alloc|realloc|dealloc)'; then
    fails 'the library asks for more than a heap'
fi
passes 'what the library asks for'

# takes_itself NAME: the function has locked exchanges of its own. The compiler drops a hint to inline where what it is
# for would grow large, and says nothing
takes_itself() {
    objdump -d --no-show-raw-insn "$library" |
        awk -v name="$1>:" '/>:$/ { found = index($0, name) } found && /lock cmpxchg/ { n++ } END { exit n < 3 }'
}
if command -v objdump >/dev/null; then
    for name in find_base find_huge; do takes_itself "Allocator::$name" || fails "$name calls one body for all orders"; done
    passes 'single and huge frames are taken by bodies of their own'
else
    skips 'bodies of takes' objdump binutils
fi

# is_here LANGUAGE: a compiler for it
is_here() {
    echo 'int main(void) { return 0; }' | "$cc" -x "$1" -o "$folder/empty" - 2>/dev/null
}
# compiles LANGUAGE [FLAG..]: the program on standard input, without a warning
compiles() {
    "$cc" -x "$@" -Wall -Wextra -Werror -I"$root/include" -c -o "$folder/header.o" - >"$folder/log" 2>&1
}
for language in c c++; do
    is_here "$language" || { skips "the headers in $language" g++ g++; continue; }
    for header in "$root"/include/*.h; do
        name="$(basename "$header") in $language"
        printf '#include "%s"\nint main(void) { llfree_plain h = LLFREE_CLOSED; llfree_plain_close(&h);
            llfree_core c = LLFREE_CLOSED; llfree_close(&c); }\n' "$(basename "$header")" | compiles "$language" ||
            fails "$name: not compiled"
        passes "$name"
    done
done
# an answer that nobody looks at is refused, but for that of a give
for words in c 'c -std=c2x' c++ 'c++ -std=c++17'; do
    name="answers that are looked at, in $words"
    start='#include "llfree.h"\nint main(void) { llfree_core c = LLFREE_CLOSED; uint32_t f = 0;'
    echo 'int main(void) { return 0; }' | compiles $words || { skips "$name" "$cc that has it" gcc; continue; }
    printf '%b' "$start return (int)llfree_take(&c, 0, &f) + (int)llfree_give(&c, f, 0); }" | compiles $words ||
        fails "$name: not compiled"
    printf '%b' "$start llfree_give(&c, f, 0); }" | compiles $words || fails "$name: a give is refused"
    ! printf '%b' "$start llfree_take(&c, 0, &f); }" | compiles $words || fails "$name: nothing is said of a take"
    grep -qE 'unused|nodiscard' "$folder/log" || fails "$name: something else is said"
    passes "$name"
done

# runs NAME SOURCE: the program is run, and has to write what stands beside its source
runs() {
    "$folder/program" >"$folder/out" || fails "$1: failed"
    [ ! -f "${2%.*}.out" ] || diff "${2%.*}.out" "$folder/out" || fails "$1: another output"
    passes "$1"
}
[ $# -gt 0 ] || set -- -O0 -O2 -fsanitize=address,undefined -fsanitize=thread
for source in "$root"/examples/c/*.c "$root"/tools/c/*.c; do
    with=("$library" "$heap" -lpthread)
    # its heap may be its own
    ! grep -q '^struct rattle_block rattle_alloc' "$source" || with=("$library" -lpthread)
    for flags in "$@"; do
        name="$(basename "$source") $flags"
        # the machine may lack what watches over memory
        { echo 'int main(void) { return 0; }' | "$cc" -x c "$flags" -o "$folder/empty" - && "$folder/empty"; } \
            >/dev/null 2>&1 || { skips "programs in C with $flags" "$cc that has it" gcc; continue; }
        "$cc" "$flags" -Wall -Wextra -Werror -I"$root/include" -o "$folder/program" "$source" "${with[@]}" || fails "$name: not built"
        runs "$name" "$source"
    done
done

# the program of the first page, as it stands there
source=$folder/readme.c
{
    printf '#include "llfree_pool.h"\n#include <stdio.h>\nint main(void)\n{\n'
    sed -n '/^From C /,/^## /s/^    //p' "$root/README.md"
    printf 'return 0;\n}\n'
} >"$source"
sed -n 's/^From C .*; it prints `\(.*\)`:$/\1/p' "$root/README.md" >"$folder/readme.out"
"$cc" -Wall -Wextra -Werror -I"$root/include" -o "$folder/program" "$source" "$library" "$heap" ||
    fails 'README.md: not built'
runs 'README.md' "$source"

# two threads mail frames to each other; a frame in two hands is seen
name='resting.c: by mail'
"$cc" -O2 -Wall -Wextra -Werror -I"$root/include" -o "$folder/program" "$root/tools/c/resting.c" "$library" "$heap" -lpthread ||
    fails "$name: not built"
"$folder/program" 10000000 || fails "$name: failed"
passes "$name: 10,000,000 frames each way"
! "$folder/program" 1000000 twice 2>"$folder/log" || fails "$name: a frame in two hands: nothing is said"
grep -q 'stamp_there == from' "$folder/log" || fails "$name: a frame in two hands: something else is said"
passes "$name: a frame in two hands"

# of programs that write the memory of their frames ThreadSanitizer and valgrind say races where nobody tells them who has
# which frame, and where a frame is used behind its give
source=$root/tools/c/told.c
# told FLAG..: two programs of it, told and untold
told() {
    "$cc" "$@" -O1 -g -Wall -Wextra -Werror -I"$root/include" -o "$folder/told" "$source" "$library" "$heap" -lpthread &&
        "$cc" "$@" -DUNTOLD -O1 -g -I"$root/include" -o "$folder/untold" "$source" "$library" "$heap" -lpthread ||
        fails 'told.c: not built'
}
# says NAME PATTERN COMMAND..: it ends as where something was found, and says what. On busy processors threads may run one
# behind the other, so it has five tries
says() {
    local name=$1 pattern=$2 try
    shift 2
    for try in 1 2 3 4 5 none; do
        [ "$try" != none ] || fails "$name: nothing is said"
        "$@" >"$folder/log" 2>&1 || break
    done
    grep -q "$pattern" "$folder/log" || fails "$name: something else is said"
    passes "$name"
}
# is_clean NAME COMMAND..
is_clean() {
    local name=$1
    shift
    "$@" >"$folder/log" 2>&1 || { tail -n 20 "$folder/log" >&2; fails "$name: something is said"; }
    passes "$name"
}
name='told.c: ThreadSanitizer'
if { echo 'int main(void) { return 0; }' | "$cc" -x c -fsanitize=thread -o "$folder/empty" - && "$folder/empty"; } >/dev/null 2>&1; then
    told -fsanitize=thread
    is_clean "$name: told" "$folder/told" 5000
    says "$name: untold" 'data race' "$folder/untold" 5000
    says "$name: behind the give" 'data race' "$folder/told" 5000 late
else
    skips "$name" "$cc that has it" gcc
fi
if command -v valgrind >/dev/null && [ -e /usr/include/valgrind/helgrind.h ]; then
    told
    for tool in helgrind drd memcheck; do
        name="told.c: $tool"
        under=(valgrind -q --tool="$tool" --error-exitcode=9)
        is_clean "$name: told" "${under[@]}" "$folder/told" 300
        # memcheck knows no threads
        [ "$tool" = memcheck ] || says "$name: untold" 'race\|Conflicting' "${under[@]}" "$folder/untold" 300
        says "$name: behind the give" 'race\|Conflicting\|Invalid' "${under[@]}" "$folder/told" 300 late
    done
    # a duty of the header that is broken is found, and nothing where they are kept
    "$cc" -O1 -g -Wall -Wextra -Werror -I"$root/include" -o "$folder/duties" "$root/tools/c/duties.c" "$library" "$heap" \
        -lpthread || fails 'duties.c: not built'
    under=(valgrind -q --error-exitcode=9)
    lost=(--leak-check=full --show-leak-kinds=definite --errors-for-leak-kinds=definite)
    is_clean 'duties.c: kept: memcheck' "${under[@]}" "${lost[@]}" "$folder/duties"
    is_clean 'duties.c: kept: helgrind' "${under[@]}" --tool=helgrind "$folder/duties"
    while IFS=, read -r tool duty found; do
        [ "$tool" = memcheck ] && with=("${lost[@]}") || with=()
        says "duties.c: $duty: $tool" "$found" "${under[@]}" --tool="$tool" "${with[@]}" "$folder/duties" $duty
    done <<'ROWS'
memcheck,1,Invalid write
helgrind,1 read,data race
memcheck,2,uninitialised value
memcheck,2 moved,Invalid read
memcheck,2 overwritten,definitely lost
helgrind,3,data race
memcheck,6,uninitialised value
helgrind,8,data race
ROWS
else
    skips 'told.c and duties.c under valgrind' valgrind valgrind
fi

for source in "$root"/tools/c/*.cpp; do
    name=$(basename "$source")
    is_here c++ || { skips "$name" g++ g++; continue; }
    "$cc" -std=c++17 -O1 -Wall -Wextra -Wpedantic -Wshadow -Wconversion -Werror -I"$root/include" -o "$folder/program" \
        -x c++ "$source" -x none "$library" "$heap" -lstdc++ -lpthread || fails "$name: not built"
    runs "$name" "$source"
done

source=$root/examples/c/first.c
# as it is installed: one archive, a shared library of which only llfree_* is seen, and what finds them
name='installed'
make -s -C "$root" install PREFIX="$folder/at" >/dev/null || fails "$name: not installed"
# CMake has to find it where it was moved to
at=$folder/at
source=$root/examples/c/first.c
"$cc" -I"$at/include" -o "$folder/program" "$source" "$at/lib/libllfree.a" || fails "$name: no archive"
runs "$name: the archive" "$source"
"$cc" -I"$at/include" -o "$folder/program" "$source" -L"$at/lib" -lllfree -Wl,-rpath,"$at/lib" ||
    fails "$name: no shared library"
readelf -d "$folder/program" | grep -q 'libllfree\.so\.1\]' || fails "$name: the shared library is not asked for"
runs "$name: the shared library" "$source"
nm -D --defined-only "$at/lib/libllfree.so.1" | awk '$2 != "A" { sub(/@.*/, "", $3); print $3 }' | sort |
    diff - "$folder/exported" || fails "$name: other names in the shared library"
passes "$name: the names of the shared library"
if command -v python3 >/dev/null; then
    LLFREE_SO=$at/lib/libllfree.so.1 "$root/bindings/python/test.py" >"$folder/log" 2>&1 ||
        { tail -n 20 "$folder/log" >&2; fails "$name: from Python"; }
    passes "$name: from Python"
else
    skips "$name: from Python" python3 python3
fi
if command -v pkg-config >/dev/null; then
    export PKG_CONFIG_PATH=$at/lib/pkgconfig
    [ "$(pkg-config --modversion llfree)" = "$(cat "$root/VERSION")" ] || fails "$name: another version for pkg-config"
    read -ra with < <(pkg-config --cflags --libs llfree)
    "$cc" -o "$folder/program" "$source" "${with[@]}" -Wl,-rpath,"$at/lib" || fails "$name: not built by pkg-config"
    runs "$name: by pkg-config" "$source"
    unset PKG_CONFIG_PATH
else
    skips "$name: by pkg-config" pkg-config pkgconf
fi
source=$root/examples/c/own_heap.c
"$cc" -I"$at/include" -o "$folder/program" "$source" "$at/lib/libllfree.a" || fails "$name: no heap of its own"
runs "$name: a program's own heap" "$source"
if command -v cmake >/dev/null; then
    source=$root/examples/c/first.c
    mv "$at" "$folder/moved"
    with=(-DCMAKE_PREFIX_PATH="$folder/moved" -DCMAKE_C_COMPILER="$cc")
    { cmake -S "$root/examples/c" -B "$folder/cmake" "${with[@]}" && cmake --build "$folder/cmake"; } >"$folder/log" 2>&1 ||
        { tail -n 20 "$folder/log" >&2; fails "$name: not built by CMake"; }
    for kind in first first-static; do
        cp "$folder/cmake/$kind" "$folder/program"
        runs "$name: by CMake: $kind" "$source"
    done
    # asks VERSION..: whether CMake gives what asks for this version
    asks() {
        printf 'cmake_minimum_required(VERSION 3.10)\nproject(asks C)\nfind_package(llfree %s CONFIG REQUIRED)\n' "$*" \
            >"$folder/asks/CMakeLists.txt"
        cmake -S "$folder/asks" -B "$folder/asks/build" "${with[@]}" >"$folder/log" 2>&1
    }
    mkdir "$folder/asks"
    IFS=. read -r major minor patch <"$root/VERSION"
    for version in '' "$major" "$major.$minor.$patch EXACT"; do
        asks $version || fails "$name: CMake does not find version $version"
    done
    for version in "$((major + 1))" "$major.$((minor + 1))" "$major.$minor.$((patch + 1)) EXACT"; do
        ! asks $version || fails "$name: CMake finds version $version"
    done
    passes "$name: by CMake: versions"
else
    skips "$name: by CMake" cmake cmake
fi
make -s -C "$root" install PREFIX=/usr DESTDIR="$folder/to" >/dev/null || fails "$name: not under DESTDIR"
[ "$(ls "$folder/to/usr/include")" = "$(ls "$root/include")" ] || fails "$name: a header is not installed"
(cd "$folder/to" && find usr ! -type d; echo usr/share/doc/llfree/copyright) | sort >"$folder/files"
for call in $(cat "$folder/declared") llfree_take_retry; do
    grep -qx "\.so man3/llfree\.3" "$folder/to/usr/share/man/man3/$call.3" || fails "$name: no page for man on $call"
done
if command -v man >/dev/null; then
    MANPATH=$folder/to/usr/share/man man llfree_take_retry 2>/dev/null | grep -q 'SEE ALSO' ||
        fails "$name: man does not find the page of a call"
    passes "$name: man finds the page of a call"
else
    skips "$name: man" man man-db
fi
if command -v dpkg-deb >/dev/null; then
    package=$("$root/tools/deb.sh" "$folder" 2>/dev/null) || fails "$name: no package"
    [ "$(dpkg-deb -f "$package" Package Version Architecture | paste -sd ' ')" = \
        "Package: llfree Version: $(cat "$root/VERSION") Architecture: amd64" ] || fails "$name: another package"
    dpkg-deb --fsys-tarfile "$package" | tar -t | sed -n 's|^\./\(.*[^/]\)$|\1|p' | sort |
        diff "$folder/files" - || fails "$name: other files in the package"
    passes "$name: as a package of Debian"
else
    skips "$name: as a package of Debian" dpkg-deb dpkg
fi
make -s -C "$root" uninstall PREFIX=/usr DESTDIR="$folder/to" >/dev/null || fails "$name: not removed"
[ -z "$(find "$folder/to" ! -type d)" ] || fails "$name: something is left"
passes "$name: nothing is left"

source=$root/examples/c/first.rs
if command -v rustc >/dev/null; then
    rustc --edition 2021 -o "$folder/program" "$source" -L"$(dirname "$library")" -lstatic=llfree_c \
        -L"$(dirname "$heap")" -lstatic=libc_c || fails 'first.rs: not built'
    runs first.rs "$source"
else
    skips first.rs rustc rustc
fi
echo "$passed passed, 0 failed"
