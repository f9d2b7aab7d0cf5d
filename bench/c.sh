#!/usr/bin/env bash
# Measures takes and gives from C through the library, by numbers, with blocks in structs (unchecked) and with single
# frames that rest with a core (resting), beside a buddy allocator with lists for each processor, as Linux has it, a
# bitmap and a buddy allocator under a mutex (bench/c/peers.h, locked.h), and malloc (bench/c/pairs.c), and the
# allocator's own pairs (crates/llfree_bench). It needs a C compiler, and a built build/llfree_bench; the library is
# built where it is not there.
# The two programs run in turn, RUNS times, each time with PAIRS pairs a thread; each figure is the median
# of all runs, in nanoseconds for a take and a give of one thread. `own` is the allocator's own pair, and
# each `ratio` the library's to it; `times` is how many times as long as the library the other one takes.
# UNDER, which stands before both programs: two_programs.sh
set -eu -o pipefail
unset CDPATH MAKEFLAGS MFLAGS
here=$(cd "$(dirname "$0")" && pwd)
top=$(dirname "$here")
library=$top/build/libllfree_c.a
heap=$(dirname "$(rt doc)")/c/liblibc_c.a
pairs=${PAIRS:-200000}
runs=${RUNS:-15}
. "$here/two_programs.sh"
make -s -C "$top" library >&2
"${CC:-cc}" -O2 -Wall -Wextra -I"$top/include" -o "$folder/pairs" "$here"/c/*.c "$library" "$heap" -lpthread

for run in $(seq "$runs"); do
    shows "run $run of $runs"
    $under "$program" allocator "$pairs" 1 | awk -F, '$1 == "pairs" { print $2 "," $3 ",own," $5 }' >>"$folder/lines"
    $under "$folder/pairs" "$pairs" 1 >>"$folder/lines"
done
shows

printf '%7s %5s %10s %8s %6s %13s %6s %11s %9s %9s %6s %10s %6s %9s %6s %9s %6s\n' threads order \
    'llfree ns' 'own ns' ratio 'unchecked ns' ratio 'resting ns' 'plain ns' 'lists ns' times 'bitmap ns' times \
    'buddy ns' times 'malloc ns' times
sort -t, -k1,1n -k2,2n -k3,3 -k4,4n "$folder/lines" | awk -F, '
    { key = $1 "," $2; who = $3; figure[key, who, ++n[key, who]] = $4 / 10 }
    !(key in seen) { seen[key] = 1; rows[++count] = key }
    # the figures of each are in order
    function median(who,    many) {
        many = n[key, who]
        return (figure[key, who, int((many + 1) / 2)] + figure[key, who, int(many / 2) + 1]) / 2
    }
    END {
        for (i = 1; i <= count; i++) {
            key = rows[i]; split(key, part, ",")
            a = median("llfree"); own = median("own"); free = median("unchecked")
            b = median("bitmap"); c = median("buddy"); d = median("malloc"); e = median("lists")
            plain = (key, "plain") in n ? sprintf("%.1f", median("plain")) : ""
            resting = (key, "resting") in n ? sprintf("%.1f", median("resting")) : ""
            printf "%7d %5d %10.1f %8.1f %6.2f %13.1f %6.2f %11s %9s %9.1f %6.2f %10.1f %6.2f %9.1f %6.2f %9.1f %6.2f\n",
                part[1], part[2], a, own, a / own, free, free / own, resting, plain, e, e / a, b, b / a, c, c / a,
                d, d / a
        }
    }'
