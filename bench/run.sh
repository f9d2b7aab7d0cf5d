#!/usr/bin/env bash
# Measures `llfree run` file to file beside a plain Rust program that does the same text work, in turn.
# It needs rustc and python3, and a built build/llfree. Each figure is the least of RUNS runs. UNDER stands
# before each program, as in 'chrt -f 10'; OTHER is another build of the program, measured beside it.
set -eu
shopt -s inherit_errexit
unset CDPATH MAKEFLAGS MFLAGS
here=$(cd "$(dirname "$0")" && pwd)
. "$here/progress.sh"
program=$here/../build/llfree
other=${OTHER:-}
runs=${RUNS:-5}
folder=$(mktemp -d)
trap 'rm -rf "$folder"' EXIT
[ -x "$program" ] || { echo 'run ./llfree once first: it builds the program' >&2; exit 1; }
python3 "$here/traces.py" "$folder"
rustc --edition 2021 -O -o "$folder/reference" "$here/reference/answers.rs"

# took INPUT OUTPUT COMMAND..: the wall time of a run, in milliseconds
took() {
    local start
    start=$(date +%s%N)
    ${UNDER:-} "${@:3}" <"$1" >"$2"
    echo $((($(date +%s%N) - start) / 1000000))
}

# lesser A B: the lesser of two numbers, of which the first may be empty
lesser() {
    if [ -z "$1" ] || [ "$2" -lt "$1" ]; then echo "$2"; else echo "$1"; fi
}

printf '%-28s %10s %10s %12s %6s\n' 'trace (1,000,000 records)' 'llfree ms' 'other ms' 'reference ms' ratio
# row NAME CHILDREN TEXT: the program, the other one where there is one, and the reference, in turn
row() {
    local text=$folder/$1.csv ours='' others='' theirs='' time
    for turn in $(seq "$runs"); do
        shows "$3: run $turn of $runs"
        time=$(took "$text" "$folder/$1.ours" "$program" run "$2" 1)
        ours=$(lesser "$ours" "$time")
        if [ -n "$other" ]; then
            time=$(took "$text" "$folder/$1.others" "$other" run "$2" 1)
            others=$(lesser "$others" "$time")
        fi
        time=$(took "$text" "$folder/$1.theirs" "$folder/reference" "$2")
        theirs=$(lesser "$theirs" "$time")
    done
    shows
    cmp -s "$folder/$1.ours" "$folder/$1.theirs" || { echo "$1: the outputs differ" >&2; exit 1; }
    printf '%-28s %10d %10s %12d %6s\n' "$3" "$ours" "${others:--}" "$theirs" \
        "$(awk "BEGIN { printf \"%.2f\", $ours / $theirs }")"
}
row pairs 1 'pairs, 8 held'
row mixed 1 'orders 0 to 6, 8 held'
row held 1024 '500,000 held, then given'
