#!/usr/bin/env bash
# Holds the receiver against the original by running both.
#   oracle/receiver.sh SOURCES [SEED] [SESSIONS]
# SOURCES is the folder that has rigflow-core/ and rigflow-client/. SESSIONS is their number for each small size of the
# picture; long pictures and a real set's sizes run a hundredth of it, and the largest sizes one session. After every call
# the answer, samples, rows, spectra, smoothing, estimates, pictures, counters and the clock are compared, and that no other
# word of the state and no other place of the areas has changed. Exit status 0: all equal.
. "$(dirname "$0")/common.sh"
original "$1"
libraries receiver_exports
seed=${2:-1}
sessions=${3:-1000}
few=$(((sessions + 99) / 100))
for size in "1 1" "4 2" "5 3" "64 9" "200 4"; do
  picture $size
  run receiver "$seed" "$sessions" small
done
for size in "4096 1" "1 4096"; do
  picture $size
  run receiver "$seed" "$few" small
done
picture 1024 412
run receiver "$seed" "$few" set
picture 4096 4096
run receiver "$seed" 1 largest
