#!/usr/bin/env bash
# Boots Linux, and prints what it says: boot.sh [-l LINE] SECONDS LOG COMMAND.. The last line is its count; without one,
# or after SECONDS, it has failed. With LINE it must not come to a count, but say that. All that it started ends with it.
set -u
line=
if [ "$1" = -l ]; then
    line=$2
    shift 2
fi
seconds=$1 log=$2
shift 2
# a group of its own, since User Mode Linux is many processes
setsid "$@" </dev/null >"$log" 2>&1 &
booted=$!
trap 'kill -KILL -- "-$booted" 2>/dev/null' EXIT
trap 'exit 130' INT TERM HUP
timeout "$seconds" tail --pid="$booted" -f /dev/null &
wait $! || echo "stopped after $seconds s"
kill -KILL -- "-$booted" 2>/dev/null
count=$(tr -d '\r' <"$log" | grep -xE '[0-9]+ passed, [0-9]+ failed' | tail -n 1)
if [ -n "$line" ]; then
    # of the rest only that line is of interest
    if [ -z "$count" ] && tr -d '\r' <"$log" | grep -m 1 -E "$line"; then
        count='1 passed, 0 failed'
    else
        tail -n 20 "$log"
        echo "it does not say: $line"
        count='0 passed, 1 failed'
    fi
else
    tr -d '\r' <"$log" | grep -vxE '[0-9]+ passed, [0-9]+ failed'
fi
if [ -z "$count" ]; then
    echo 'it ended without a count'
    count='0 passed, 1 failed'
fi
echo "$count"
[ "${count#* passed, }" = '0 failed' ]
