#!/usr/bin/env bash
# Holds the program play against a replay around the original on a long session at a real set's sizes, in both forms, by digest,
# and times both and tells the most memory that each held.
#   oracle/hours.sh SOURCES [MINUTES]
# SOURCES is the folder that has rigflow-core/ and rigflow-client/. The session is that of examples/make_minutes.py, 60 minutes
# where none are given; an hour takes 2 GB of the folder for temporary files. With PLAY=PATH that program is run in place of the
# one of this repository, and nothing is built here. Each is run three times in alternation, and the best time counts.
# Exit status 0: all equal. 1: a difference. 2: it could not be run.
. "$(dirname "$0")/common.sh"
original "${1:-}"
minutes=${2:-60}
if [ -z "${PLAY:-}" ]; then
  program play
  PLAY=$root/crates/play/out/play
fi
PLAY=$(realpath "$PLAY")
[ -f "$PLAY" ] && [ -x "$PLAY" ] || { echo "no program at '$PLAY'" >&2; exit 2; }
picture 1024 412
rustc --edition 2021 -O -A warnings -o "$work/hours" "$work/hours.rs"
tape=$work/minutes.tape
python3 -B "$root/examples/make_minutes.py" "$minutes" > "$tape"
ulimit -S -s 163840 2> /dev/null || { echo "the stack cannot be made as large as play needs it" >&2; exit 2; }

# Runs a program on the tape: its digest, its seconds and its most memory in kB, in one line.
measured() {
  python3 -B "$here/measured.py" "$@"
}

# The less of two numbers, or the one that there is.
less() {
  awk -v a="$1" -v b="${2:-$1}" 'BEGIN { print a < b ? a : b }'
}

echo "$minutes minutes, $(stat -c %s "$tape") bytes"
for form in --summary ''; do
  best=('' '')
  for _ in 1 2 3; do
    i=0
    for of in "$work/hours" "$PLAY"; do
      read -r digest seconds memory <<< "$(measured "$of" ${form:+"$form"} "$tape")"
      digests[i]=$digest
      memories[i]=$memory
      best[i]=$(less "$seconds" "${best[i]}")
      i=$((i + 1))
    done
    [ "${digests[0]}" = "${digests[1]}" ] || { echo "DIFFERS: ${form:-whole lines}"; exit 1; }
  done
  echo "${form:-whole lines}: equal, ${digests[0]}"
  ratio=$(awk -v a="${best[1]}" -v b="${best[0]}" 'BEGIN { printf "%.2f", a / b }')
  echo "  original ${best[0]} s, ${memories[0]} kB; play ${best[1]} s, ${memories[1]} kB; ratio $ratio"
done
