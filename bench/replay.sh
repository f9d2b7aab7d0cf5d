#!/usr/bin/env bash
# Replays a recording of a kernel's page frames on 1 to 4 threads, as fast as it goes, through the library for C by
# numbers, and by structs with single frames that rest with their core; through a buddy allocator with lists for each
# processor, as Linux has it, and a buddy allocator and a bitmap, each under a mutex (bench/replay.c). It needs a C
# compiler and python3; the library is built where it is not there.
#     bench/replay.sh [RECORDING.gz|RECORDING.xz]
# A round is a tenth of a second of the recording, so threads seldom wait for each other. A time is the median of
# REPEATS repeats, in nanoseconds of one thread for a take or a give; `times` is how many times as long as the library;
# huge are the huge frames left free at the end, of CHILDREN (64, doubled until the recording fits), in the mean, where
# frames that rest or lie in lists count as free; refused are the takes refused by the five, in all repeats. UNDER
# stands before the program, as in 'chrt -f 10'.
set -eu
unset CDPATH MAKEFLAGS MFLAGS
here=$(cd "$(dirname "$0")" && pwd)
top=$(dirname "$here")
. "$here/progress.sh"
recording=${1:-$top/examples/replay/kernel-events.txt.gz}
case $recording in *.xz) unpack=xz ;; *) unpack=gzip ;; esac
repeats=${REPEATS:-15}
library=$top/build/libllfree_c.a
folder=$(mktemp -d)
trap 'rm -rf "$folder"' EXIT
make -s -C "$top" library >&2
"${CC:-cc}" -O2 -Wall -Wextra -I"$top/include" -I"$here/c" -o "$folder/replay" "$here/replay.c" "$here/c/peers.c" \
    "$here/c/bitmap.c" "$library" "$(dirname "$(rt doc)")/c/liblibc_c.a" -lpthread

for threads in 1 2 3 4; do
    shows "$threads of 4 threads"
    "$unpack" -dc "$recording" | "$top/tools/kernel_trace.py" --cores "$threads" --slice 100000 \
        >"$folder/trace" 2>"$folder/counts" || { cat "$folder/counts" >&2; exit 1; }
    least=$(grep -om 1 'so [0-9,]* child' "$folder/counts" | tr -dc 0-9)
    children=${CHILDREN:-64}
    while [ -z "${CHILDREN:-}" ] && [ "$children" -lt "$least" ]; do children=$((2 * children)); done
    ${UNDER:-} "$folder/replay" "$threads" "$children" "$repeats" <"$folder/trace" >>"$folder/lines"
done
shows

printf '%7s %10s %10s %6s %9s %6s %9s %6s %10s %6s %11s %12s %10s %10s %11s %14s\n' threads 'llfree ns' \
    'resting ns' times 'lists ns' times 'buddy ns' times 'bitmap ns' times llfree-huge resting-huge lists-huge \
    buddy-huge bitmap-huge refused
sort -t, -k1,1n -k2,2 -k3,3n "$folder/lines" | awk -F, '
    { key = $1 "," $2; spent[key, ++count[key]] = $3 / 10; huge[key] += $5; refused[key] += $4; last = $1 }
    # the figures of each are in order
    function median(key,    many) {
        many = count[key]
        return (spent[key, int((many + 1) / 2)] + spent[key, int(many / 2) + 1]) / 2
    }
    function left(key) { return huge[key] / count[key] }
    END {
        many = split("llfree resting lists buddy bitmap", names, " ")
        for (threads = 1; threads <= last; threads++) {
            first = median(threads ",llfree")
            printf "%7d %10.1f", threads, first
            for (i = 2; i <= many; i++) {
                figure = median(threads "," names[i])
                printf " %" (i == 2 || i == many ? 10 : 9) ".1f %6.2f", figure, figure / first
            }
            said = ""
            for (i = 1; i <= many; i++) {
                key = threads "," names[i]
                said = said (i == 1 ? "" : "/") refused[key]
                printf " %" length(names[i]) + 5 ".1f", left(key)
            }
            printf " %14s\n", said
        }
    }'
