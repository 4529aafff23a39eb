#!/usr/bin/env bash
# Holds a channel's sound against the original's JitterBuffer by running both.
#   oracle/jitter_buffer.sh SOURCES [SEED] [SESSIONS]
# SOURCES is the folder that has rigflow-core/ and rigflow-client/. Each session is one channel's, A's or B's, through the
# receiver's calls. After every call all counters, the samples, the answer and the buffered amount are compared. Exit
# status 0: all equal.
. "$(dirname "$0")/common.sh"
original "$1"
libraries receiver_exports
run jitter_buffer "${2:-1}" "${3:-100000}"
