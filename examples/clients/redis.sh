#!/usr/bin/env bash
# Redis over another malloc, which saves under load: redis.sh FOLDER COMMAND.., where the command is what the server is
# started with, such as env LD_PRELOAD=... Keys of its own are written; while others are written without pause the server
# forks three times and saves; and its own are read back: from this server; again after it has saved, emptied itself and
# read what it saved; and from one that is started without the command, at a file saved under load. All lies in the
# folder, and no port is opened.
set -u
cd "$1" || exit
shift
trap 'kill $(jobs -p) 2>/dev/null' EXIT
says() { redis-cli -s socket "$@"; }
fails() {
    echo "Redis: $1" >&2
    exit 1
}
# waits COMMAND..: until it holds, as long as the server runs
waits() {
    until "$@"; do
        kill -0 "$server" 2>/dev/null || fails 'it ended'
        sleep 0.05
    done
}
# starts FILE COMMAND..: a server at this file, which answers
starts() {
    local file=$1
    shift
    "$@" redis-server --port 0 --unixsocket socket --save '' --dbfilename "$file" --enable-debug-command local \
        --jemalloc-bg-thread no --loglevel warning &
    server=$!
    waits is_there
}
is_there() { [ "$(says ping 2>/dev/null)" = PONG ]; }
is_loaded() { [ "$(says dbsize)" -gt 3000 ]; }
is_saved() { [ "$(persistence rdb_bgsave_in_progress)" = 0 ]; }
ends() {
    says shutdown nosave
    wait "$server" || fails "ended with $?"
}
reads_back() { says <gets | cmp - values || fails "other values $1"; }
persistence() { says info persistence | tr -d '\r' | sed -n "s/^$1://p"; }

# 2,000 keys of 1 to 40,000 bytes: as commands, and what they answer
awk 'BEGIN {
    for (text = "x"; length(text) < 40000;) text = text text
    for (i = 0; i < 2000; i++) {
        value = i substr(text, 1, i * 7919 % 40000)
        printf "set own:%d %s\r\n", i, value >"sets"
        print "get own:" i >"gets"
        print value >"values"
    }
}'
starts dump "$@"
says --pipe <sets >pipe || fails 'keys are not written'
redis-benchmark -s socket -l -q -n 20000 -r 20000 -d 2000 -P 16 -t set,lpush,lpop,sadd,hset,zadd >load 2>&1 &
load=$!
waits is_loaded
for save in 1 2 3; do
    says bgsave
    waits is_saved
    [ "$(persistence rdb_last_bgsave_status)" = ok ] || fails "save $save failed"
    [ "$(persistence rdb_changes_since_last_save)" -gt 0 ] || fails "nothing was written during save $save"
done
kill "$load"
wait "$load"
mv dump saved
reads_back 'under load'
digest=$(says debug digest)
says debug reload
[ "$(says debug digest)" = "$digest" ] || fails 'another digest after a reload'
reads_back 'after a reload'
says dbsize
ends
starts saved
reads_back 'in the saved file'
ends
