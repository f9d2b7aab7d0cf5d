#!/usr/bin/env bash
# Measures single frames from C that come and go several at once, one by one, and by the lists of a processor, as Linux
# has it (bench/batches.c says what). It needs a C compiler; the library is built where it is not there. All are
# measured in turn, in FRAMES frames, ROUNDS times; each figure is the least of all rounds, in nanoseconds for a frame.
# UNDER stands before the program, as in 'chrt -f 10'.
set -eu
unset CDPATH MAKEFLAGS MFLAGS
here=$(cd "$(dirname "$0")" && pwd)
top=$(dirname "$here")
library=$top/build/libllfree_c.a
folder=$(mktemp -d)
trap 'rm -rf "$folder"' EXIT
make -s -C "$top" library >&2
"${CC:-cc}" -O2 -Wall -Wextra -I"$top/include" -I"$here/c" -o "$folder/batches" "$here/batches.c" "$here/c/peers.c" \
    "$library" "$(dirname "$(rt doc)")/c/liblibc_c.a" -lpthread
${UNDER:-} "$folder/batches" "${FRAMES:-524288}" "${ROUNDS:-9}" >"$folder/lines"

printf '%6s %8s %11s %14s %9s\n' frames 'at once' 'at once ns' 'one by one ns' 'lists ns'
awk -F, '
    !(($1, $2, $3) in least) || $4 < least[$1, $2, $3] { least[$1, $2, $3] = $4 }
    !(($1, $2) in seen) { seen[$1, $2] = 1; what[++n] = $1; size[n] = $2 }
    END {
        for (i = 1; i <= n; i++)
            printf "%6s %8d %11.1f %14.1f %9.1f\n", what[i], size[i], least[what[i], size[i], "at once"] / 10,
                least[what[i], size[i], "one by one"] / 10, least[what[i], size[i], "lists"] / 10
    }' "$folder/lines"
