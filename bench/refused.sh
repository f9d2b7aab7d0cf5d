#!/usr/bin/env bash
# Measures a take that is refused by a full memory of 512 trees, one core of four at work, beside as many
# bare loads (bench/refused.c says which). It needs a C compiler; the library is built where it is not
# there. The two are measured in turn, ROUNDS times COUNT takes; each figure is the least of all rounds.
# UNDER stands before the program, as in 'chrt -f 10'.
set -eu -o pipefail
unset CDPATH MAKEFLAGS MFLAGS
here=$(cd "$(dirname "$0")" && pwd)
top=$(dirname "$here")
library=$top/build/libllfree_c.a
count=${COUNT:-20000}
rounds=${ROUNDS:-15}
folder=$(mktemp -d)
trap 'rm -rf "$folder"' EXIT
make -s -C "$top" library >&2
"${CC:-cc}" -O2 -Wall -Wextra -I"$top/include" -o "$folder/refused" "$here/refused.c" "$library" \
    "$(dirname "$(rt doc)")/c/liblibc_c.a" -lpthread
${UNDER:-} "$folder/refused" "$count" "$rounds" >"$folder/lines"

printf '%5s %6s %10s %10s %8s %10s %6s\n' order loads 'llfree ns' 'a load ns' 'bare ns' 'a load ns' times
sort -t, -k1,1n -k2,2 -k3,3n "$folder/lines" | awk -F, '
    !(($1, $2) in least) { least[$1, $2] = $3 / 10; loads = $4; if ($1 != last || !n) { order[++n] = $1; last = $1 } }
    END {
        for (i = 1; i <= n; i++) {
            a = least[order[i], "llfree"]; b = least[order[i], "bare"]
            printf "%5d %6d %10.1f %10.2f %8.1f %10.2f %6.2f\n", order[i], loads, a, a / loads, b, b / loads, a / b
        }
    }'
