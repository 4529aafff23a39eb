#!/usr/bin/env bash
# Holds a player that somebody wrote from docs/TAPE.md and docs/RECEIVER.md against the receiver of this repository, on
# random tapes. The original is not needed.
#   oracle/player.sh PLAYER [SEED] [TAPES]
# PLAYER is any executable. `PLAYER --state < TAPE` prints what docs/RECEIVER.md says of a replay and then, where a session
# was replayed (not after a refused tape or setup), the final state in the lines below. It has 20 seconds for a tape; its
# exit status and standard error do not count. Every line ends with byte 10, and one space stands between words. Floats are
# BITS: eight lower-case hex digits, every NaN as 7fc00000. Whole numbers, N, are decimal. `-` stands where there is none.
#
#   state calls N                the accepted calls
#   state last1 N                the last sequence of stream 1, or -
#   state last2 N                and of stream 2
# then eleven lines of A, and the same of B:
#   state A next N               or -
#   state A waiting N ..         the waiting sequences in their order; `state A waiting` where none waits
#   state A queue BITS ..        the oldest first
#   state A run N
#   state A largest N            the largest buffered amount
#   state A row NUMBER TOTAL FILLED DONE BITS ..   DONE is 0 or 1, then all TOTAL values; `state A row -` with no open row
#   state A spectrum BITS ..
#   state A smoothing BITS ..    the smoothing buffer
#   state A picture HEX ..       width x height colours of six lower-case hex digits, the top row first
#   state A settings ADAPTIVE TOP RANGE ZOOM SMOOTHING   ADAPTIVE is 0 or 1, the others BITS
#   state A estimates TOP FLOOR RANGE                    BITS
# then
#   state clock OFFSET ROUNDTRIP LEAST ONEWAY   N in nanoseconds, with a - before a negative one; or -
#   state ms OFFSET ROUNDTRIP ONEWAY            BITS of the readings in ms, or -
#   state depth AVERAGE PEAK                    BITS of the readings: 0 before the first
#   state counts CONCEALS LATE OVERFLOW RESYNCS   N, those of the last depth
#   state transmit BITS                         the transmit peak
#
# Printed are the tapes that agree wholly and those that differ in the replay's lines and in the state's, what the tapes had,
# in which line the first difference of each tape stands, and the first three differences, their lines cut to 200
# characters. The tape of the first one is kept under target/.
# Exit status 0: all agree. 1: they do not. 2: it could not be run, or 1,000 tapes or more lacked something.
. "$(dirname "$0")/common.sh"
[ -f "${1:-}" ] && [ -x "$1" ] || { echo "PLAYER is an executable, not '${1:-}'" >&2; exit 2; }
libraries receiver_exports
mkdir -p "$root/target"
seed=${2:-1}
run player "$(realpath "$1")" "$seed" "${3:-1000}" "$work/tape" "$root/target/player-differs-$seed.tape"
