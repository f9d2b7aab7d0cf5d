#!/usr/bin/env bash
# Measures takes and gives from C by numbers, over 2 GiB in 1, 4 and 64 zones with holes between them, where each
# thread has a home zone of its own if there are enough (bench/c/pairs.c). It needs a C compiler; the library is built
# where it is not there. The program runs RUNS times, each time with PAIRS pairs a thread; each figure is the median of
# all runs, in nanoseconds for a take and a give of one thread.
# UNDER, which stands before the program, as `chrt -f 10`
set -eu -o pipefail
unset CDPATH MAKEFLAGS MFLAGS
here=$(cd "$(dirname "$0")" && pwd)
top=$(dirname "$here")
library=$top/build/libllfree_c.a
heap=$(dirname "$(rt doc)")/c/liblibc_c.a
pairs=${PAIRS:-200000}
runs=${RUNS:-15}
. "$here/progress.sh"
folder=$(mktemp -d)
trap 'rm -rf "$folder"' EXIT
make -s -C "$top" library >&2
"${CC:-cc}" -O2 -Wall -Wextra -I"$top/include" -o "$folder/pairs" "$here"/c/*.c "$library" "$heap" -lpthread

for run in $(seq "$runs"); do
    shows "run $run of $runs"
    ${UNDER:-} "$folder/pairs" "$pairs" 1 zones >>"$folder/lines"
done
shows

printf '%7s %5s %10s %10s %10s\n' threads order '1 zone ns' '4 zones ns' '64 zones ns'
sort -t, -k1,1n -k2,2n -k3,3 -k4,4n "$folder/lines" | awk -F, '
    { key = $1 "," $2; figure[key, $3, ++n[key, $3]] = $4 / 10 }
    !(key in seen) { seen[key] = 1; rows[++count] = key }
    # the figures of each are in order
    function median(zones,    many) {
        many = n[key, zones]
        return (figure[key, zones, int((many + 1) / 2)] + figure[key, zones, int(many / 2) + 1]) / 2
    }
    END {
        for (i = 1; i <= count; i++) {
            key = rows[i]; split(key, part, ",")
            printf "%7d %5d %10.1f %10.1f %11.1f\n", part[1], part[2], median("1"), median("4"), median("64")
        }
    }'
