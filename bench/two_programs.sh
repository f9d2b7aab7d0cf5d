# What the scripts that run two programs in turn begin with: the built benchmark, and a folder for the lines.
# UNDER stands before both programs: with UNDER='chrt -f 10' threads stand on processors of their own from
# the start, and other work on the machine does not slow them.
. "$here/progress.sh"
program=$top/build/llfree_bench
under=${UNDER:-}
folder=$(mktemp -d)
trap 'rm -rf "$folder"' EXIT
[ -x "$program" ] || {
    echo 'run make bench once: it proves and builds the program' >&2
    exit 1
}
