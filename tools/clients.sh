#!/usr/bin/env bash
# Tries programs that others wrote over the library: jemalloc under a load of threads, under a compiler, under Python with
# forks and under Redis, which saves under load; mimalloc under that load of threads; SQLite's page cache; std::pmr. Each
# counts frames, and finds one that is out twice; what the machine lacks is said and left out. The last line counts.
set -u
. "$(dirname "$0")/holds.sh"
unset LD_PRELOAD
root=$(cd "$(dirname "$0")/.." && pwd)
cc=${CC:-cc}
clients=$root/examples/clients
archives=("$root/build/libllfree_c.a" "$(dirname "$(rt doc)")/c/liblibc_c.a")
builds() { "$cc" -O2 -Wall -Wextra -Werror -I"$root/include" -o "$@" "${archives[@]}" "${libraries[@]}" -lpthread; }
# links LANGUAGE HEADERS LIBRARY: whether programs are built with it here
links() {
    { printf '#include <%s>\n' $2; echo 'int main(void) { return 0; }'; } |
        "$cc" -x "$1" -std="${standard:-gnu17}" -o "$folder/empty" - "$3" 2>/dev/null
}
command -v "$cc" >/dev/null || { skips 'other programs over the library' "$cc (gcc)"; ends; }
make -s -C "$root" library >"$folder/log" 2>&1 || { tail -n 20 "$folder/log" >&2; failed=1; ends; }

# under COMMAND..: with jemalloc's extents out of frames
under() { adds_up timeout 60 "${with[@]}" "$@"; }
# adds_up COMMAND..: it ends well; each process adds up, takes and splits nothing, and one gives; of all their pages less
# than 1 % come from elsewhere
adds_up() {
    rm -f "$folder/log"
    "$@" && grep -q '^takes .* gives [1-9]' "$folder/log" && ! grep -q '^takes 0 \| splits [1-9]' "$folder/log" &&
        sed 's/.*; pages \([0-9]*\), from elsewhere \([0-9]*\) .*/\1 \2/' "$folder/log" |
        awk '{ inside += $1; others += $2 } END { exit inside == 0 || 100 * others >= inside + others }'
}
# what the last process has told
tells() { [ ! -e "$folder/log" ] || sed -n '$s/^/    /p' "$folder/log"; }
compiles() {
    under "$cc" -O2 -c -I"$root/include" -o "$folder/checks.o" "$root/tools/c/checks.c" &&
        cmp "$folder/checks.o" "$folder/plain.o"
}
python() { [ "$(under "$python" "$clients/threads.py")" = 'all is well' ] && [ "$(wc -l <"$folder/log")" -ge 17 ]; }
if links c 'stdlib.h jemalloc/jemalloc.h' -ljemalloc; then
    libraries=(-ljemalloc)
    holds 'jemalloc: built' builds "$folder/frames.so" -fPIC -shared "$clients/jemalloc.c"
    # the program's malloc is jemalloc's only where this stands before the C library
    jemalloc=$(ldd "$folder/frames.so" | awk '/libjemalloc/ { print $3 }')
    with=(env PYTHONMALLOC=malloc FRAMES_LOG="$folder/log" LD_PRELOAD="$folder/frames.so $jemalloc")
    libraries=()
    holds 'a load for malloc: built' builds "$folder/stamps" "$clients/stamps.c"
    holds 'jemalloc: a load of threads' under "$folder/stamps"
    tells
    "$cc" -O2 -c -I"$root/include" -o "$folder/plain.o" "$root/tools/c/checks.c"
    holds 'jemalloc: a compiler' compiles
    if python=$(python3 -c 'import sys; print(sys.executable)'); then
        holds 'jemalloc: Python, threads and forks' python
    else
        skips 'jemalloc under Python' 'python3 (python3)'
    fi
    if command -v redis-server >/dev/null; then
        mkdir "$folder/redis"
        holds 'jemalloc: Redis, saves under load' \
            adds_up timeout 120 "$clients/redis.sh" "$folder/redis" "${with[@]}"
        tells
    else
        skips 'jemalloc under Redis' 'redis-server (redis-server)'
    fi
else
    skips "jemalloc's extents" 'jemalloc (libjemalloc-dev)'
fi

if links c mimalloc.h -lmimalloc; then
    libraries=(-lmimalloc)
    holds 'mimalloc: built' builds "$folder/mimalloc" "$clients/mimalloc.c"
    holds 'mimalloc: a load of threads' timeout 60 "$folder/mimalloc"
else
    skips "mimalloc's arenas" 'mimalloc (libmimalloc-dev)'
fi

if links c sqlite3.h -lsqlite3; then
    libraries=(-lsqlite3)
    holds "SQLite's page cache: built" builds "$folder/sqlite" "$clients/sqlite.c"
    mkdir "$folder/databases"
    holds "SQLite's page cache: eight databases" timeout 60 "$folder/sqlite" "$folder/databases"
else
    skips "SQLite's page cache" 'SQLite (libsqlite3-dev)'
fi

standard=c++17
if links c++ memory_resource -lstdc++; then
    libraries=(-lstdc++)
    holds 'std::pmr: built' builds "$folder/pmr" -std=c++17 -x c++ "$clients/pmr.cpp" -x none
    holds 'std::pmr: pools of eight threads' timeout 60 "$folder/pmr"
else
    skips 'std::pmr' 'g++ (g++)'
fi
ends
