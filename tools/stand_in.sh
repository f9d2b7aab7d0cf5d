#!/usr/bin/env bash
# Stands in the place of a kit's programs, by its name, for tools/first_run.sh: it proves nothing, says what it was
# called for in the file calls, does what a file hook.CRATE says, and builds files of the sources. It lies in kit/.
set -eu
work=${0%/kit/*} words=$(printf '%s\n' "$@")
named() { sed -n "/^$1\$/{n;p}" <<<"$words"; }
case ${0##*/}:$* in
    rt:try*) echo "try ${*:3}" >>"$work/calls" ;;
    rt:ci)
        for made in low/out/rlib/low.rlib mid/out/rlib/mid.rlib other/out/rlib/other.rlib llfree_c/out/checked; do
            mkdir -p "crates/$made"
            cat "crates/${made%%/*}"/src/*.rt >"crates/$made/text"
        done
        echo '["check", "--logic-built", "", "--jobs", ""]' >crates/llfree_c/out/words
        . "$work/hook.ci"; printf '%s\n' 'rt: must-fail low/one.edit: refused, as it must be' '3 passed, 0 failed' ;;
    rattle:*--crate-checked*) cat "$(named --crate-checked)/text" >"$(named -o)" ;;
    rattle:*--crate-name*)
        name=$(named --crate-name) made=$(named -o)
        echo "$name" >>"$work/calls"
        text=$(sed -n 's|^.*=\(/.*/crates/.*\.rlib\)$|\1/text|p' <<<"$words" | xargs -d '\n' cat src/*.rt)
        if [ -e "$work/hook.$name" ]; then . "$work/hook.$name"; fi
        mkdir -p "$made"
        echo "$text" >"$made/text"
        cat proofs/*.antt >"$made/checked.a"
        echo "logic=proved sum=1 ${word:-}native=nat,char,string logic-built=trusted" \
            "libraries-built=trusted statements=trusted" ;;
    rattle-link:*) printf '#!/bin/sh\necho %s\n' "$(echo $(cat "$7"))" >"$6" && chmod +x "$6" ;;
esac
