#!/usr/bin/env bash
# Runs the sessions of the program jitter_vectors on the original and prints its list of sessions.
#   oracle/jitter_sessions.sh SOURCES | diff - crates/jitter_vectors/src/sessions.rt
# SOURCES is the folder that has rigflow-core/ and rigflow-client/. No line: the list is the original's.
#
# A session is its name, packet, target and max, then a line for each call, and an empty line between two
# sessions. A line is a call and, behind the colon, what is to be found after it.
#   push SEQUENCE SAMPLES FIRST   a packet of so many samples, the first one FIRST, in 16 bits, the
#                                 others counting up from it
#   play SAMPLES
#   reset
# Then received, inserted, concealed, late, overflow, invalid size, resyncs, filled, the largest buffered
# amount, the buffered amount, started (0 or 1), next (0 before the start), the run of concealed packets;
# and of a play taken, dropped, short, and each sample's bits in hex. The original does not tell taken
# from dropped: dropped is what leaves its buffer where the same play asks for no sample. What it does not
# count is filled: the samples that were short, and a packet for each one concealed, since the reset.
. "$(dirname "$0")/common.sh"
original "$1"
run jitter_sessions
