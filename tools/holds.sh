# What scripts that try programs share: they source it, call holds and skips, and end with ends.
unset CDPATH MAKEFLAGS MFLAGS
folder=$(mktemp -d)
trap 'rm -rf "$folder"' EXIT
passed=0 failed=0
# holds NAME COMMAND..: it ends well; else its last lines are shown
holds() {
    local name=$1
    shift
    if "$@" >"$folder/said" 2>&1; then
        echo "$name: ok"
        passed=$((passed + 1))
    else
        tail -n 20 "$folder/said" >&2
        echo "$name: failed" >&2
        failed=$((failed + 1))
    fi
}
# skips WHAT WANTED: says that it is left out
skips() { echo "skipped: $1, for want of $2"; }
# the last line counts, and the status says whether all held
ends() {
    echo "$passed passed, $failed failed"
    [ "$failed" = 0 ]
    exit
}
