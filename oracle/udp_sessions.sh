#!/usr/bin/env bash
# Prints the sessions that crates/udp_vectors reads, with what the original showed in each.
#   oracle/udp_sessions.sh SOURCES > crates/udp_vectors/stdin
# SOURCES is the folder that has rigflow-core/ and rigflow-client/.
. "$(dirname "$0")/common.sh"
original "$1"
cat <<'TEXT'
# Sessions of a receiver's channel, with what the original showed. oracle/udp_sessions.sh prints this file.
# Numbers are hexadecimal, floats by their bits. A line's letter says what it is:
#   =  a session's name
#   Z  the answer to a setup, then its bins, width and height, and the channel's estimates of top, floor and range
#   D  the answer to a set, then its adaptive, top, range, zoom and smoothing
#   C  the answer to a chunk, then its row number, total, first bin and values
#   L  the answer to a chunk, then its row number, total, first bin, number of values and their rule
#   B  the answer to a payload, then its bytes
#      An answer is 1 to b: refused by that question, 10: accepted, 20: no row completed, or 10000 and the bins of the
#      row that was completed. What question 5 refused holds from there on all the same: it is handed in.
#   R  the row     S  the spectrum     M  the smoothing buffer     E  the estimates     P  the picture
#   T  sums of the row, the spectrum and the smoothing buffer
#   K  a level, and the colours from it on
#   Q  a sequence, sent on streams 1 to 4, and then what streams 1 and 2 count, each for itself: packets, dropped ones
#      (high word, low word) and late ones
TEXT
for size in "4 2" "8 2" "256 1"; do
  picture $size
  run udp_sessions
done
