#!/usr/bin/env bash
# Holds the program replay against a replay around the original, on random tapes, whole and damaged, byte for byte.
#   oracle/replay.sh SOURCES [SEED] [TAPES]
# SOURCES is the folder that has rigflow-core/ and rigflow-client/. With REPLAY=PATH that program is run in place of the one
# of this repository, and nothing is built here. Printed are the tapes, the bytes of output, and its lines by their letters.
# A program that ends with another status than 0 differs too, and one that says something on standard error, but for a tape
# that is too long, which must be said there.
# Exit status 0: all equal. 1: a difference, whose tape is kept under target/. 2: it could not be run.
. "$(dirname "$0")/common.sh"
original "${1:-}"
seed=${2:-1}
tapes=${3:-100000}
if [ -z "${REPLAY:-}" ]; then
  program replay
  REPLAY=$root/crates/replay/out/replay
fi
[ -f "$REPLAY" ] && [ -x "$REPLAY" ] || { echo "no program at '$REPLAY'" >&2; exit 2; }
mkdir -p "$root/target"
run replay replay "$(realpath "$REPLAY")" "$seed" "$tapes" "$root/target/replay-differs-$seed.tape"
