#!/usr/bin/env bash
# Measures takes and gives of a whole memory through the allocator beside a plain Rust program: the
# same search over std's atomics, a buddy allocator and a bitmap, each of these two under a mutex. What
# the work is stands in bench/reference/allocator/work.rs. Both programs print a line a measurement:
# work, threads, order, allocator, tenths of a nanosecond for one take and one give of one thread, and
# the refused takes of all threads. It needs rustc, and a built build/llfree_bench.
# The pairs of cores with single frames at hand, `cached`, have nothing beside them. They are twenty times as
# many, or the start of a thread would count.
# The two run in turn, RUNS times, each time with ROUNDS rounds of PAIRS pairs a thread; each figure is
# the least of all rounds. `times` is how many times as long as llfree the other one takes.
# UNDER, which stands before both programs: two_programs.sh
set -eu
unset CDPATH MAKEFLAGS MFLAGS
here=$(cd "$(dirname "$0")" && pwd)
top=$(dirname "$here")
pairs=${PAIRS:-50000}
rounds=${ROUNDS:-10}
runs=${RUNS:-5}
. "$here/two_programs.sh"
rustc --edition 2021 -O -o "$folder/reference" "$here/reference/allocator/main.rs"
"$folder/reference" check >&2

for run in $(seq "$runs"); do
    shows "run $run of $runs"
    $under "$program" allocator "$pairs" "$rounds" >>"$folder/lines"
    $under "$folder/reference" "$pairs" "$rounds" >>"$folder/lines"
    $under "$program" cached "$((20 * pairs))" "$rounds" >>"$folder/lines"
done
shows

printf '%-7s %7s %5s %10s %12s %6s %9s %7s %10s %8s %10s\n' work threads order \
    'llfree ns' 'reference ns' ratio 'buddy ns' 'times' 'bitmap ns' 'times' million/s
awk -F, '
    { key = $1 "," $2 "," $3; who = $4 }
    !(key in seen) { seen[key] = 1; order[++n] = key }
    !((key, who) in least) || $5 < least[key, who] { least[key, who] = $5 }
    $6 > 0 { refused[key] = refused[key] + $6 }
    END {
        for (i = 1; i <= n; i++) {
            key = order[i]; split(key, part, ",")
            a = least[key, "llfree"] / 10; b = least[key, "reference"] / 10
            c = least[key, "buddy"] / 10; d = least[key, "bitmap"] / 10
            if (a == 0) { print key ": no figure of llfree"; continue }
            note = (key in refused) ? "  some takes were refused" : ""
            if (b == 0) { printf "%-7s %7d %5s %10.1f%s\n", part[1], part[2], part[3], a, note; continue }
            printf "%-7s %7d %5s %10.1f %12.1f %6.2f %9.1f %7.2f %10.1f %8.2f %10.1f%s\n",
                part[1], part[2], part[3], a, b, a / b, c, c / a, d, d / a, 1000 * part[2] / a, note
        }
    }' "$folder/lines"
