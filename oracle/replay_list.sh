#!/usr/bin/env bash
# Writes the fixed list of tapes, each with what a replay around the original prints for it, and says what the list covers.
#   oracle/replay_list.sh SOURCES
# SOURCES is the folder that has rigflow-core/ and rigflow-client/. The list is crates/replay_vectors/stdin: of each tape its
# length and its output's length, in four bytes each with the most significant first, then the tape and the output.
# The session of examples/ is among them; it must print examples/session.txt.
# Exit status 0: written. 1: the list lacks something that it must have, and was not written. 2: it could not be run.
. "$(dirname "$0")/common.sh"
original "${1:-}"
mkdir -p "$root/crates/replay_vectors"
run replay_list "$root/crates/replay_vectors/stdin" "$root/examples"
