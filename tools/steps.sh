#!/usr/bin/env bash
# An atomic operation that needs no seat would make no move, and a move may be only one operation: no
# clause counts either. So by the text of frame_table: the shared words are used in steps.rt alone, at
# most once a function, and by an operation that takes a seat. The last line counts what holds.
set -u
unset CDPATH
cd "$(dirname "$0")/../crates/frame_table/src" || exit 1
passed=0
failed=0

# tell WHAT FOUND: FOUND is empty where WHAT holds
tell() {
    if [ -z "$2" ]; then
        passed=$((passed + 1))
    else
        failed=$((failed + 1))
        printf 'not so: %s\n%s\n' "$1" "$2"
    fi
}

files=$(find . -name '*.rt' | sort)
tell "the text of the moves is here" "$([ -s steps.rt ] || echo "$PWD has no steps.rt")"
tell "no operation without a seat" \
    "$(grep -nE '\b(peek|store|compare_exchange_with|[a-z_]+_new_seat)\b *(::<|\()' $files)"
tell "no use of the shared words but in steps.rt" \
    "$(grep -nE '\.shared\b' $files | grep -vE '^\./steps\.rt:|:ghost use ' | grep -vE '\.shared\.(key|table_id)\b')"
tell "one operation a function of steps.rt" \
    "$(awk '/^ *(pub(\([a-z]+\))? )?fn /{ name = $0; n = 0 } /\.shared/{ if (++n > 1) print name }
        /shared\b.*\bshared/ { print name } /for |while |loop / { if ($0 !~ /^ *\/\//) print name }' steps.rt)"
tell "each operation once" \
    "$(grep -oE '^ *(table\.grid\.shared)?\.(load|compare_exchange|fetch_[a-z]+|swap|split_seat|join_seat)\b' steps.rt \
        | sed 's/.*\.//' | sort | uniq -d)"
echo "$passed passed, $failed failed"
[ "$failed" = 0 ]
