#!/usr/bin/env bash
# Random takes and gives on threads, with a stamp in each frame of a real memory of children of 2 MiB:
#     tools/stamps.sh [SECONDS [CHILDREN [THREADS]]]
# by default 60, 64 and the number of processors. It ends with 0 where no frame was in two hands and what is held at the
# end is just what is stamped.
set -eu
unset CDPATH MAKEFLAGS MFLAGS
cd "$(dirname "$0")/.."
seconds=${1:-60}
children=${2:-64}
threads=${3:-$(nproc)}
make -s llfree_stress
said=$(build/llfree_stress "$seconds" "$children" "$threads")
printf '%s\n' "$said"
[ "$said" = $'0 frames in two hands\n0 frames held by nobody' ]
