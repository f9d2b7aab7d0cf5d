#!/usr/bin/env bash
# Kills programs that use the library for C, and looks at what is left (tools/crash/crash.c, steps.c, sweep.c): the
# words of the allocator, a journal and the pages of its frames lie in files that outlive the process.
#     tools/crash.sh [KILLS]
# kills so many times in each way to recover (150), and as often where blocks are in structs and single frames rest, and
# over zones with holes; 20 times over more than 8 GiB; stops behind each instruction of 300 calls, and of 600 with
# frames that rest, in one zone and in three; and has to find eight wrong programs. It needs a C compiler and python3,
# and builds the library where it has to. The last line counts.
set -u
unset CDPATH MAKEFLAGS MFLAGS
root=$(cd "$(dirname "$0")/.." && pwd)
cc=${CC:-cc}
kills=${1:-150}
folder=$(mktemp -d)
# files in memory where there are some: a kill is the same, and nothing waits for a disk
room=$(mktemp -d -p "$([ -w /dev/shm ] && echo /dev/shm || echo "${TMPDIR:-/tmp}")") || exit
files=$room/kept
trap 'rm -rf "$folder" "$room"' EXIT
passed=0
fails() {
    [ ! -s "$folder/log" ] || tail -n 20 "$folder/log" >&2
    echo "$1: failed" >&2
    echo "$passed passed, 1 failed"
    exit 1
}
passes() {
    echo "$1: ok"
    passed=$((passed + 1))
}
shows() { [ ! -t 2 ] || printf '\r\033[K%s' "$*" >&2; }
for command in "$cc gcc" 'make make' 'python3 python3'; do
    command -v "${command% *}" >/dev/null ||
        { printf 'skipped: kills, for want of %s (%s)\n0 passed, 0 failed\n' "${command% *}" "${command#* }"; exit; }
done
make -s -C "$root" library >"$folder/log" 2>&1 || fails 'the library is built'
library=$root/build/libllfree_c.a

# builds FOLDER NAME: the program of the sources in that folder; its heap is its own
builds() {
    local source=("$1/$2.c" "$1/kept_words.c")
    [ "$2" = sweep ] || source+=("$1/journal.c")
    "$cc" -O2 -Wall -Wextra -Werror -I"$root/include" -o "$folder/$2" "${source[@]}" "$library" -lpthread >"$folder/log" 2>&1
}
# tries NAME PROGRAM WORD..
tries() {
    local name=$1
    shift
    shows "$name"
    "$folder/$1" "${@:2}" >"$folder/log" 2>&1 || fails "$name"
    shows
    passes "$name"
}

for program in sweep steps crash; do
    builds "$root/tools/crash" "$program" || fails "$program is built"
done
# by first frame and frames: two alike, holes, the last frame that there can be
zones=0+5000,8192+1000,4194304+5000,4294964224+3072
few=0+2000,4096+600,4294965760+1536
large=0+2097152,2097664+1000,3000320+600,4294963200+4096
tries 'the words of each zone are found, in 1,000 layouts' sweep 1000
for where in 4000 "$few"; do
    tries "a stop behind each instruction of 300 calls: $where" steps 300 "$where"
    tries "a stop behind each instruction of 600 calls with frames that rest: $where" steps 600 "$where" 1 resting
done
for way in hold reclaim journal claim; do
    tries "$kills kills: $way" crash "$files" "$kills" "$way" 16000 16 1
done
tries "$kills kills with frames that rest: claim" crash "$files" "$kills" claim 16000 16 1 resting
tries "$kills kills over zones: reclaim" crash "$files" "$kills" reclaim "$zones" 16 1
tries "$kills kills over zones with frames that rest: claim" crash "$files" "$kills" claim "$zones" 16 1 resting
tries "20 kills over more than 8 GiB with frames that rest: reclaim" crash "$files" 20 reclaim "$large" 16 1 resting

# wrong NAME FILE OLD NEW PROGRAM WORD..: with this change, which fits once, the program has to find itself wrong
wrong() {
    local name=$1 file=$2 old=$3 new=$4
    shift 4
    shows "$name"
    rm -rf "$folder/wrong"
    cp -r "$root/tools/crash" "$folder/wrong"
    python3 - "$folder/wrong/$file" "$old" "$new" 2>"$folder/log" <<'PYTHON' || fails "$name: the change fits once"
import sys
name, old, new = sys.argv[1:]
text = open(name).read()
assert text.count(old) == 1, text.count(old)
open(name, 'w').write(text.replace(old, new))
PYTHON
    builds "$folder/wrong" "$1" || fails "$name: is built"
    ! "$folder/$1" "${@:2}" >"$folder/log" 2>&1 || fails "$name: is found"
    grep -q '^WRONG: ' "$folder/log" || fails "$name: says what is wrong"
    shows
    passes "$name is found"
}
many="$files 800 reclaim 16000 16 7"
wrong 'a journal that is cleared after the give' crash.c \
    '    journal[b.place] = 0;
    uint32_t status = give(t, &b);' \
    '    uint32_t status = give(t, &b);
    journal[b.place] = 0;' crash $many
wrong 'a journal that keeps what rests' crash.c '    journal[b.place] = 0;' \
    '    if (!b.right.live || b.order > 0)
        journal[b.place] = 0;' crash $many resting
wrong 'one region for old words and new ones' crash.c 'head->current == 1 ? 2 : 1' '1' crash $many
wrong 'a region that counts before the opening has answered' crash.c '    head->phase = OPENING;' \
    '    head->phase = OPENING;
    head->words_at[next][0] = region_at[next];
    head->current = next;' crash $many
wrong 'pages that are written behind the journal' crash.c \
    '        write_pages(place, order, serial);
        journal[place] = entry_of(serial, order);' \
    '        journal[place] = entry_of(serial, order);
        write_pages(place, order, serial);' crash $many
wrong 'the words of two zones that change places' crash.c 'head->words_at[next][z] =' \
    'head->words_at[next][z == 0 || z == 2 ? 2 - z : z] =' crash "$files" 40 hold "$zones" 16 1
wrong 'the first blocks of the sizes of the words' kept_words.c 'size_t z = staying++ - BEFORE;' \
    'size_t z = staying;
        staying += z < kept->zones && requests[i].size == 8 * kept->zone[z].count;' sweep 1000
wrong 'a huge frame that is claimed as one after its split' journal.c 'if (order == HUGE_ORDER && !huge)' 'if (false)' \
    steps 2000 4000 1
echo "$passed passed, 0 failed"
