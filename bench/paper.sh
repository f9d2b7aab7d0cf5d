#!/usr/bin/env bash
# Measures what LLFree's authors measured (USENIX ATC 2023), and what kernels do besides, from C (bench/paper): the
# library by numbers (llfree), with blocks in structs (unchecked), so with single frames that rest with a core (resting),
# and with two handles a thread (two); a buddy allocator with lists for each processor, as Linux has it (lists); a buddy
# allocator and a bitmap, each under a mutex; and malloc where it can stand in.
#     bench/paper.sh [--only NAME] > bench/results/FILE.csv
# NAME is phases (bulk, repeat, random, foreign gives), levels (up to 99.9 % held), mixed (huge frames left where sizes
# mix), ring (taken here, given there), tails (percentiles, bursts, preempted), climb (64 GiB filled from empty) or
# refusals (takes that find nothing in a cut up memory). Each program checks that no frame is had twice, and that all is
# free at the end. It needs a C compiler, python3 and 2 GiB; the library is built where it is not there. UNDER stands
# before each program, as in 'chrt -f 10'; ROUNDS is how often each allocator has its turn; ONLY names allocators, by
# default all. A line is a case, with the least of its rounds for nanoseconds, the median for percentiles, the mean for
# all else (bench/paper.py).
set -eu
unset CDPATH MAKEFLAGS MFLAGS
here=$(cd "$(dirname "$0")" && pwd)
top=$(dirname "$here")
. "$here/progress.sh"
library=$top/build/libllfree_c.a
rounds=${ROUNDS:-3}
gib=262144 # frames
all='phases levels mixed ring tails climb refusals'
case "$#,${1:-}" in
    0,) only=$all ;;
    2,--only) only=$2 ;;
    *) only= ;;
esac
case " $all " in
    *" $only "*) ;;
    *) echo "usage: bench/paper.sh [--only ${all// /|}]" >&2; exit 2 ;;
esac
folder=$(mktemp -d)
trap 'rm -rf "$folder"' EXIT
make -s -C "$top" library >&2

# runs NAME WORD..: one program, as the words say
runs() {
    shows "$*"
    ${UNDER:-} "$folder/$1" "${@:2}" >>"$folder/lines"
}

phases() {
    for threads in 1 2 4; do
        runs phases $((8 * gib)) $threads 0 "$rounds"
        runs phases $((8 * gib)) $threads 9 $((3 * rounds)) # they are short
    done
}
levels() {
    for threads in 1 2 4; do
        runs levels $((gib / 16)) $threads 0 50000 "$rounds"
        runs levels $((8 * gib)) $threads 0 50000 "$rounds"
    done
}
mixed() {
    runs mixed $gib 4 70 5 60
    for threads in 1 2 4; do
        runs mixed $((8 * gib)) $threads 70 5 60
    done
}
ring() { for threads in 2 4; do runs ring $gib $threads 500000 "$rounds"; done; }
tails() {
    for threads in 1 2 4; do
        runs tails $gib $threads 200000 1 0 "$rounds"
        runs tails $gib $threads 200000 1024 0 "$rounds"
        if chrt -f 30 true 2>/dev/null; then
            runs tails $gib $threads 200000 1024 100 "$rounds"
        fi
    done
}
climb() {
    for threads in 1 2 4; do
        runs climb $((8 * gib)) $threads 0 "$rounds"
        runs climb $((64 * gib)) $threads 0 "$rounds"
    done
    for threads in 1 4; do runs climb $((64 * gib)) $threads 9 2; done
}
refusals() { for held in 500 900; do runs refusals $((8 * gib)) $held 40 2; done; }

for name in $only; do
    "${CC:-cc}" -O2 -Wall -Wextra -I"$top/include" -I"$here/c" -o "$folder/$name" "$here/paper/$name.c" \
        "$here/c/peers.c" "$here/c/bitmap.c" "$library" "$(dirname "$(rt doc)")/c/liblibc_c.a" -lpthread -lm
done
for name in $only; do
    $name
done
shows
"$here/paper.py" --lines "$folder/lines"
