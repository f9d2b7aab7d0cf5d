#!/usr/bin/env bash
# Measures `llfree rebuild` and `llfree report` on an image of 4,096 children, file to file, beside a
# plain Rust program that does the same. It needs rustc and python3, and a built
# build/llfree. Each figure is the least of RUNS runs, of a whole process.
set -eu
shopt -s inherit_errexit
unset CDPATH MAKEFLAGS MFLAGS
here=$(cd "$(dirname "$0")" && pwd)
. "$here/progress.sh"
program=$here/../build/llfree
runs=${RUNS:-20}
folder=$(mktemp -d)
trap 'rm -rf "$folder"' EXIT
[ -x "$program" ] || { echo 'run ./llfree once first: it builds the program' >&2; exit 1; }
python3 "$here/images.py" "$folder/image.csv"
rustc --edition 2021 -O -o "$folder/reference" "$here/reference/images.rs"

# the least wall time of some runs, in microseconds
least() {
    best=
    for run in $(seq "$runs"); do
        shows "run $run of $runs"
        start=$(date +%s%N)
        "$1" "$2" <"$folder/image.csv" >"$3"
        took=$((($(date +%s%N) - start) / 1000))
        if [ -z "$best" ] || [ "$took" -lt "$best" ]; then best=$took; fi
    done
    echo "$best"
}

printf '%-28s %10s %12s %6s\n' 'image (4,096 children)' 'llfree us' 'reference us' ratio
for command in rebuild report; do
    ours=$(least "$program" "$command" "$folder/ours")
    theirs=$(least "$folder/reference" "$command" "$folder/theirs")
    cmp -s "$folder/ours" "$folder/theirs" || { echo "$command: the outputs differ" >&2; exit 1; }
    shows
    printf '%-28s %10d %12d %6s\n' "$command" "$ours" "$theirs" "$(awk "BEGIN { printf \"%.2f\", $ours / $theirs }")"
done
