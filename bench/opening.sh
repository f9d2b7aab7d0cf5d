#!/usr/bin/env bash
# Measures openings for several threads from C, and the memory that they ask their heap for
# (bench/opening.c). It needs a C compiler; the library is built where it is not there. Each time is the
# least of ROUNDS rounds. UNDER stands before the program, as in 'chrt -f 10'.
#     bench/opening.sh [FRAMES..]
set -eu -o pipefail
unset CDPATH MAKEFLAGS MFLAGS
here=$(cd "$(dirname "$0")" && pwd)
top=$(dirname "$here")
library=$top/build/libllfree_c.a
rounds=${ROUNDS:-5}
folder=$(mktemp -d)
trap 'rm -rf "$folder"' EXIT
[ $# -gt 0 ] || set -- 262144 2097152
make -s -C "$top" library >&2
"${CC:-cc}" -O2 -Wall -Wextra -I"$top/include" -o "$folder/opening" "$here/opening.c" "$library" \
    "$(dirname "$(rt doc)")/c/liblibc_c.a" -lpthread
printf '%-12s %8s %10s %10s %14s %12s %14s\n' opening frames ms touches 'ns a frame' 'bytes kept' 'at the peak'
for frames; do
    ${UNDER:-} "$folder/opening" "$frames" "$rounds"
done | awk -F, '{ printf "%-12s %8d %10.2f %10d %14.1f %12.2f %14.2f\n", $1, $2, $3 / 1000, $4, $3 * 1000 / $2, $5 / $2, $6 / $2 }'
