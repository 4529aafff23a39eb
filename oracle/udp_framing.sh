#!/usr/bin/env bash
# Holds crates/udp_framing against the original by running both.
#   oracle/udp_framing.sh SOURCES [SEED] [COUNT]
# SOURCES is the folder that has rigflow-core/ and rigflow-client/. COUNT is the number of cases for each function,
# a million unless it is given. Exit status 0: every case is equal.
. "$(dirname "$0")/common.sh"
original "$1"
libraries udp_framing_exports
run udp_framing "${2:-1}" "${3:-1000000}"
