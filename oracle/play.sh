#!/usr/bin/env bash
# Holds the program play against a replay around the original, byte for byte and in both its forms: on the tapes of the fixed list,
# then on random tapes, whole and damaged.
#   oracle/play.sh SOURCES [SEED] [TAPES]
# SOURCES is the folder that has rigflow-core/ and rigflow-client/. With PLAY=PATH that program is run in place of the one of this
# repository, and nothing is built here. Each run lays out the areas, so that a tape takes a third of a second.
# Exit status 0: all equal. 1: a difference, whose tape is kept under target/. 2: it could not be run.
. "$(dirname "$0")/common.sh"
original "${1:-}"
seed=${2:-1}
tapes=${3:-1000}
if [ -z "${PLAY:-}" ]; then
  program play
  PLAY=$root/crates/play/out/play
fi
[ -f "$PLAY" ] && [ -x "$PLAY" ] || { echo "no program at '$PLAY'" >&2; exit 2; }
mkdir -p "$root/target"
ulimit -S -s 163840 2> /dev/null || { echo "the stack cannot be made as large as play needs it" >&2; exit 2; }
run replay play "$(realpath "$PLAY")" "$seed" "$tapes" "$root/target/play-differs-$seed.tape" "$root/crates/replay_vectors/stdin"
