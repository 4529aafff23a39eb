#!/usr/bin/env bash
# Prints what a replay of a tape is by the original, with a second writing of the tape's reader, the questions and the lines.
#   oracle/replay_one.sh SOURCES < TAPE
# SOURCES is the folder that has rigflow-core/ and rigflow-client/.
. "$(dirname "$0")/common.sh"
original "${1:-}"
run replay_one
