#!/usr/bin/env bash
# Measures pairs of a take and a give on a shared table beside a plain Rust program that makes the
# same atomic steps. It needs rustc, and a built build/llfree_bench. The two
# programs run in turn, RUNS times, each time with ROUNDS rounds of PAIRS pairs a thread; each
# figure is the least of all rounds.
# UNDER, which stands before both programs: two_programs.sh
set -eu
unset CDPATH MAKEFLAGS MFLAGS
here=$(cd "$(dirname "$0")" && pwd)
top=$(dirname "$here")
pairs=${PAIRS:-100000}
rounds=${ROUNDS:-20}
runs=${RUNS:-5}
. "$here/two_programs.sh"
rustc --edition 2021 -O -o "$folder/reference" "$here/reference/pairs.rs"

for run in $(seq "$runs"); do
    shows "run $run of $runs"
    $under "$program" "$pairs" "$rounds" >>"$folder/ours"
    $under "$folder/reference" "$pairs" "$rounds" >>"$folder/theirs"
done
shows

printf '%-10s %7s %5s %12s %12s %6s %14s\n' \
    trees threads order 'llfree ns' 'reference ns' ratio 'million/s'
awk -F, -v file="$folder/ours" '
    { key = $1 "," $2 "," $3 }
    FILENAME == file { if (!(key in ours)) order[++n] = key; if (!(key in ours) || $4 < ours[key]) ours[key] = $4; next }
    { if (!(key in theirs) || $4 < theirs[key]) theirs[key] = $4 }
    END {
        for (i = 1; i <= n; i++) {
            split(order[i], part, ",")
            a = ours[order[i]] / 10; b = theirs[order[i]] / 10
            printf "%-10s %7d %5d %12.1f %12.1f %6.2f %14.1f\n", part[1], part[2], part[3], a, b, a / b, 1000 * part[2] / a
        }
    }' "$folder/ours" "$folder/theirs"
