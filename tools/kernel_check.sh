#!/usr/bin/env bash
# Looks whether a kernel may link an archive, by its code and its names, whatever compiled it.
#   kernel_check.sh ARCHIVE [NAME..]    names that it may ask for besides the heap's three and mem*
# The last line counts what was looked at.
set -eu
archive=$1
shift
asked='mem(cpy|move|set|cmp)|rattle_(alloc|realloc|dealloc)'
for name in "$@"; do asked+="|$name"; done
code=$(mktemp)
trap 'rm -f "$code"' EXIT
objdump -d --no-show-raw-insn "$archive" | grep -P '^ +[0-9a-f]+:\t' >"$code" || { echo '0 passed, 1 failed'; exit 1; }
passed=0
failed=0

# passes WHAT FOUND: nothing was found
passes() {
    if [ -z "$2" ] || [ "$2" = 0 ]; then
        echo "$1: none"
        passed=$((passed + 1))
    else
        echo "$1:" $2
        failed=$((failed + 1))
    fi
}

# no_instruction WHAT PATTERN: the code has none that is so
no_instruction() {
    passes "$1" "$(grep -cP -e "$2" "$code" || true)"
}

# no_name WHAT PATTERN NAMES: each name is one that the pattern allows
no_name() {
    passes "$1" "$(echo "$3" | grep -vxE "$2|" || true)"
}

echo "instructions: $(wc -l <"$code"), of which popcnt: $(grep -cP '\tpopcnt' "$code" || true)"
no_instruction 'registers of SSE, AVX, MMX or x87' '%([xyz]?mm|k|tmm)[0-9]|%st\b|:\tf'
no_instruction 'words below the stack pointer (the red zone)' '-0x[0-9a-f]+\(%rsp'
no_instruction 'calls and jumps to what a register or a word says' '\t(notrack )?(call|jmp)q? +(\S+ +)?\*'
no_instruction 'segment registers (thread-local storage)' '%[fg]s:'
no_name 'names that it asks for besides a heap and mem*' "$asked" \
    "$(nm -u "$archive" | awk 'NF == 2 { print $2 }' | sort -u)"
no_name 'names that it has besides those of the header' 'llfree_[a-z_]+' \
    "$(nm -g --defined-only "$archive" | awk 'NF == 3 { print $3 }' | sort -u)"
no_name 'relocations that hold at one address alone' 'R_X86_64_(PC32|PLT32)' \
    "$(readelf -rW "$archive" | awk '/R_X86_64/ { print $3 }' | sort -u)"
no_name 'sections that it writes to' 'none' \
    "$(readelf -SW "$archive" | sed 's/^ *\[ *[0-9]*\] *//' | awk '$7 ~ /W/ && $5 !~ /^0+$/ { print $1 }')"
echo "$passed passed, $failed failed"
[ "$failed" = 0 ]
