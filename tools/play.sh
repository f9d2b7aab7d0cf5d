#!/usr/bin/env bash
# Tries the page that plays a recording (tools/play/checks.py): its bytes, its states beside the library's own images as
# the program reads them that is named or that the gate built, and itself in headless Chromium, which is named and left
# out where it is missing. It needs python3, a C compiler and the library for C. The last line counts what was tried.
#     tools/play.sh [PROGRAM] [--renew] [--pictures FOLDER]
# With --renew the sums of the pages and the picture are laid down anew, where allocators answer otherwise than before.
set -u
unset CDPATH
cd "$(dirname "$0")/.."
export PYTHONDONTWRITEBYTECODE=1
program=crates/llfree/out/llfree
case ${1:---} in
    --*) ;;
    *)
        program=$1
        shift
        ;;
esac
for needed in 'python3 python3' "${CC:-cc} gcc"; do
    command -v "${needed% *}" >/dev/null && continue
    printf 'skipped: the page that plays, for want of %s (%s)\n0 passed, 0 failed\n' "${needed% *}" "${needed#* }"
    exit 0
done
exec tools/play/checks.py "$program" "$@"
