#!/usr/bin/env bash
# Holds the proved reader and writer of the tape against a second one, made from docs/TAPE.md, on random tapes, damaged and whole.
#   oracle/tape.sh [SEED] [COUNT]
# Exit status 0: the same verdict, the same place, the same calls, the same bytes.
. "$(dirname "$0")/common.sh"
libraries tape_exports
run tape "${1:-1}" "${2:-100000}"
