#!/usr/bin/env bash
# Measures pairs of a take and a give in 1, 4 and 64 zones beside one allocator, all of 1,024 children:
# nanoseconds for a pair of one thread, where each thread has a home zone of its own if there are enough,
# and where the home zone of 2, 4 and 64 is full, so that each take goes on to the next one. And how long it takes to open
# 64 GiB in 8 zones. It needs a built build/llfree_bench, which runs RUNS times, each time
# with ROUNDS rounds of PAIRS pairs a thread; each figure is the least of all rounds.
# UNDER, which stands before the program: two_programs.sh
set -eu
unset CDPATH MAKEFLAGS MFLAGS
here=$(cd "$(dirname "$0")" && pwd)
top=$(dirname "$here")
pairs=${PAIRS:-50000}
rounds=${ROUNDS:-10}
runs=${RUNS:-5}
. "$here/two_programs.sh"

for run in $(seq "$runs"); do
    shows "run $run of $runs"
    $under "$program" zones "$pairs" "$rounds" >>"$folder/lines"
done
shows

printf '%-10s %7s %5s %10s %10s %10s %10s %10s\n' work threads order allocator '1 zone' '2 zones' '4 zones' '64 zones'
awk -F, '
    { key = $1 "," $3 "," $4 }
    $1 != "opening" && !(key in seen) { seen[key] = 1; order[++n] = key }
    !((key, $2) in least) || $5 < least[key, $2] { least[key, $2] = $5 }
    $6 > 0 { refused[key] = 1 }
    function figure(key, zones) { return (key, zones) in least ? sprintf("%.1f", least[key, zones] / 10) : "-" }
    END {
        for (i = 1; i <= n; i++) {
            key = order[i]; split(key, part, ",")
            printf "%-10s %7d %5s %10s %10s %10s %10s %10s%s\n", part[1], part[2], part[3], figure(key, "none"),
                figure(key, 1), figure(key, 2), figure(key, 4), figure(key, 64), (key in refused) ? "  some takes were refused" : ""
        }
        printf "64 GiB in 8 zones are opened in %.1f ms\n", least["opening,1,none", 8] / 10000000
    }' "$folder/lines"
