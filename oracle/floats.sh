#!/usr/bin/env bash
# Holds the crate floats against Rust's own operations by running both.
#   oracle/floats.sh [SEED] [COUNT] [every]
# COUNT is the number of random cases a function. `every` tries the functions of one float on every float too.
# Exit status 0: all equal. The first difference is printed.
. "$(dirname "$0")/common.sh"
libraries floats
run floats "${1:-1}" "${2:-4000000}" ${3:+"$3"}
