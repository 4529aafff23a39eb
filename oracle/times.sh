#!/usr/bin/env bash
# Times calls beside the original, both for release, each the best of several runs in alternation: packets with their plays,
# rows, the example session, and calls that do almost nothing. A ratio above 1: this is slower.
#   oracle/times.sh SOURCES
# SOURCES is the folder that has rigflow-core/ and rigflow-client/. Here the calls are made by the program repeat_tape.
. "$(dirname "$0")/common.sh"
original "${1:-}"
program repeat_tape
program replay
rustc --edition 2021 -O -A warnings -o "$work/replay_one" "$work/replay_one.rs"
picture 1024 412
ulimit -s unlimited
run times "$root/crates/repeat_tape/out/repeat_tape" "$root/crates/replay/out/replay" "$work/replay_one" "$root/examples/session.tape"
